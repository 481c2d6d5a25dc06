//! The window and its rules.

use super::tables::{
    entry, named, opposite, place_of, sheet_of, slot, Tables, CENTRE, ENTRIES, RAISE, RESET, SHEET, SHEETS,
};
use crate::steps::{each_way, ways, Way, Ways, DOWNWARD, UPWARD};
use crate::streams::{Shape, LARGEST};
use std::mem::{replace, take};

// A node's flags.
const ACTIVE: u8 = 1;
const DEFECT: u8 = 2;
const UNROOTED: u8 = 4;
/// It is in the list of active nodes.
const LISTED: u8 = 8;
/// It is in the list of nodes to sync.
const AWAKE: u8 = 16;

/// What a neighbour's mark makes of a node in the next step: sixteen times the mark plus the direction that it is seen
/// in, or reset. The lowest stands, as in the scan: reset, else the lowest mark, in the first direction that has it.
type Offer = u32;
const NO_OFFER: Offer = u32::MAX;
const RESET_OFFER: Offer = 0;

fn offered(mark: u16, way: Way) -> Offer {
    Offer::from(mark) << 4 | Offer::from(way)
}

/// Edges of a layer by number, 64 to a word.
const WORDS: usize = LARGEST.edges().div_ceil(64);

/// Arrays have an entry for each node. Those of a sheet that is not touched hold nothing of use.
pub struct Window {
    tables: Tables,
    sheets: u16,
    /// The words that hold a layer's edges, and the model's directions down.
    words: usize,
    downward: Ways,
    /// The top sheet's number, and how many sheets are there, those of supplied rounds.
    top: u16,
    present: u16,
    /// Sheets that are not fresh, a bit for each slot.
    touched: u16,
    flags: [u8; ENTRIES],
    pointers: [Way; ENTRIES],
    marks: [u16; ENTRIES],
    /// The directions of edges of growth 2, and of those that have or had growth 1.
    open: [Ways; ENTRIES],
    half: [Ways; ENTRIES],
    corrections: [[u64; WORDS]; SHEETS],
    offers: [Offer; ENTRIES],
    /// Nodes with an offer, which are busy in the next step, and nodes to sync in it.
    offered: Vec<u16>,
    awake: Vec<u16>,
    /// All active nodes, and others.
    active: Vec<u16>,
    unrooted: Vec<u16>,
    // Lists of a single step, kept for their room.
    changed: Vec<u16>,
    turning: Vec<u16>,
    sending: Vec<u16>,
}

impl Window {
    pub fn new(shape: Shape) -> Window {
        Window {
            tables: Tables::new(shape),
            sheets: shape.sheets() as u16,
            words: shape.edges().div_ceil(64),
            downward: DOWNWARD & ((1 << ways(shape.model)) - 1),
            top: RAISE + 1,
            present: 0,
            touched: 0,
            flags: [0; ENTRIES],
            pointers: [0; ENTRIES],
            marks: [0; ENTRIES],
            open: [0; ENTRIES],
            half: [0; ENTRIES],
            corrections: [[0; WORDS]; SHEETS],
            offers: [NO_OFFER; ENTRIES],
            offered: vec![],
            awake: vec![],
            active: vec![],
            unrooted: vec![],
            changed: vec![],
            turning: vec![],
            sending: vec![],
        }
    }

    /// How many detectors a sheet has.
    pub fn detectors(&self) -> usize {
        self.tables.detectors.len()
    }

    /// Puts a fresh sheet on top.
    pub fn advance(&mut self) {
        if self.top == 1 {
            self.raise();
        }
        self.top -= 1;
        self.present = self.sheets.min(self.present + 1);
    }

    /// Raises all sheets' numbers. At rest no other list holds names.
    fn raise(&mut self) {
        let by = named(RAISE, 0);
        self.top += RAISE;
        self.marks.iter_mut().for_each(|mark| *mark = mark.wrapping_add(by));
        self.active.iter_mut().chain(&mut self.unrooted).for_each(|name| *name = name.wrapping_add(by));
    }

    /// A defect of the top sheet.
    pub fn receive(&mut self, detector: usize) {
        self.touch(self.top);
        let name = named(self.top, self.tables.detectors[detector]);
        self.flags[entry(name)] |= DEFECT;
        self.wake(name);
    }

    /// The corrections and defects of the sheet that left; nothing if it was fresh.
    pub fn leaving(&mut self) -> Option<(&[u64], Option<Vec<u8>>)> {
        let slot = slot(self.top + self.sheets);
        if self.touched >> slot & 1 == 0 {
            return None;
        }
        self.touched &= !(1 << slot);
        let flags = &self.flags[slot * SHEET..][..SHEET];
        let escapes = flags.iter().fold(0, |all, flags| all | flags) & DEFECT != 0;
        let bit = |&place: &u16| u8::from(flags[usize::from(place)] & DEFECT != 0);
        Some((&self.corrections[slot][..self.words], escapes.then(|| self.tables.detectors.iter().map(bit).collect())))
    }

    fn is_touched(&self, sheet: u16) -> bool {
        self.touched >> slot(sheet) & 1 == 1
    }

    /// Makes a fresh sheet's entries.
    fn touch(&mut self, sheet: u16) {
        if self.is_touched(sheet) {
            return;
        }
        self.touched |= 1 << slot(sheet);
        self.corrections[slot(sheet)][..self.words].fill(0);
        let from = slot(sheet) * SHEET;
        self.flags[from..from + SHEET].fill(0);
        self.pointers[from..from + SHEET].fill(CENTRE);
        self.open[from..from + SHEET].fill(0);
        self.half[from..from + SHEET].fill(0);
        for (mark, of_place) in self.marks[from..from + SHEET].iter_mut().zip(&self.tables.marks) {
            *mark = named(sheet, 0).wrapping_add(*of_place);
        }
    }

    fn wake(&mut self, name: u16) {
        let flags = &mut self.flags[entry(name)];
        if *flags & AWAKE == 0 {
            *flags |= AWAKE;
            self.awake.push(name);
        }
    }

    fn offer(&mut self, name: u16, offer: Offer) {
        let lowest = &mut self.offers[entry(name)];
        if offer < *lowest {
            if *lowest == NO_OFFER {
                self.offered.push(name);
            }
            *lowest = offer;
        }
    }

    /// Offers the lower mark of two neighbours to the other. Inlined, or a tenth of all instructions are calls.
    #[inline(always)]
    fn compare(&mut self, name: u16, mark: u16, way: Way) {
        let there = self.tables.neighbour(name, way);
        let other = self.marks[entry(there)];
        if mark < other {
            self.offer(there, offered(mark, opposite(way)));
        } else if other < mark {
            self.offer(name, offered(other, way));
        }
    }

    pub fn grow(&mut self) {
        while let Some(name) = self.unrooted.pop() {
            self.flags[entry(name)] &= !UNROOTED;
        }
        if !self.active.is_empty() {
            let mut active = take(&mut self.active);
            active.retain(|&name| self.grow_from(name));
            self.active = active;
        }
        self.cut();
    }

    /// A node of the list of active nodes: its edges gain a half. Whether it stays in the list.
    fn grow_from(&mut self, name: u16) -> bool {
        let (here, sheet) = (entry(name), sheet_of(name));
        if sheet >= self.top + self.sheets {
            return false;
        }
        if self.flags[here] & ACTIVE == 0 {
            self.flags[here] &= !LISTED;
            return false;
        }
        let mut gaining = self.tables.ways[place_of(name)] & !self.open[here];
        if sheet == self.top {
            gaining &= !UPWARD;
        }
        if sheet == self.top + self.present - 1 {
            gaining &= !DOWNWARD;
        }
        if gaining & UPWARD != 0 {
            self.touch(sheet - 1);
        }
        if gaining & DOWNWARD != 0 {
            self.touch(sheet + 1);
        }
        let half = self.half[here];
        self.half[here] |= gaining;
        self.open[here] |= gaining & half;
        for way in each_way(gaining & !half) {
            self.half[entry(self.tables.neighbour(name, way))] |= 1 << opposite(way);
        }
        for way in each_way(gaining & half) {
            self.open[entry(self.tables.neighbour(name, way))] |= 1 << opposite(way);
            self.compare(name, self.marks[here], way);
        }
        true
    }

    /// The bottom sheet's edges down are gone, and nodes that pointed along one are reset.
    fn cut(&mut self) {
        let bottom = self.top + self.sheets - 1;
        if !self.is_touched(bottom) {
            return;
        }
        let from = slot(bottom) * SHEET;
        self.open[from..from + SHEET].iter_mut().for_each(|open| *open &= !DOWNWARD);
        let pointers = &self.pointers[from..from + SHEET];
        let points = |way| pointers.iter().fold(false, |any, &pointer| any | (pointer == way));
        if !each_way(self.downward).any(points) {
            return;
        }
        for detector in 0..self.detectors() {
            let name = named(bottom, self.tables.detectors[detector]);
            let here = entry(name);
            if DOWNWARD >> self.pointers[here] & 1 == 1 {
                self.pointers[here] = CENTRE;
                self.marks[here] = RESET;
                self.wake(name);
                self.spread(name);
            }
        }
    }

    /// One step; whether some node was busy.
    pub fn merge(&mut self) -> bool {
        let busy = !self.awake.is_empty() && self.sync();
        if self.offered.is_empty() {
            return busy;
        }
        self.flood();
        true
    }

    /// Whether some node was busy in syncing. All nodes look before any changes.
    fn sync(&mut self) -> bool {
        let (mut turning, mut sending) = (take(&mut self.turning), take(&mut self.sending));
        for &name in &self.awake {
            let here = entry(name);
            let (flags, pointer) = (self.flags[here] & !AWAKE, self.pointers[here]);
            self.flags[here] = flags;
            let active = if pointer == CENTRE {
                flags / DEFECT
            } else {
                if flags & DEFECT != 0 {
                    sending.push(name);
                }
                self.flags[entry(self.tables.neighbour(name, pointer))]
            };
            if (flags ^ active) & ACTIVE != 0 {
                turning.push(name);
            }
        }
        self.awake.clear();
        let busy = !turning.is_empty() || !sending.is_empty();
        sending.drain(..).for_each(|name| self.send(name));
        turning.drain(..).for_each(|name| self.turn(name));
        (self.turning, self.sending) = (turning, sending);
        busy
    }

    /// A node sends its defect along its pointer.
    fn send(&mut self, name: u16) {
        let pointer = self.pointers[entry(name)];
        let there = self.tables.neighbour(name, pointer);
        let (sheet, edge) = self.tables.edge(name, pointer);
        self.corrections[slot(sheet)][edge / 64] ^= 1 << (edge % 64);
        self.toggle(name);
        if self.tables.inner[place_of(there)] {
            self.toggle(there);
        }
    }

    fn toggle(&mut self, name: u16) {
        self.flags[entry(name)] ^= DEFECT;
        self.wake(name);
    }

    /// A node turns active or inactive, and the nodes that point to it are to follow.
    fn turn(&mut self, name: u16) {
        let here = entry(name);
        let flags = self.flags[here] ^ ACTIVE;
        self.flags[here] = flags | LISTED;
        if flags & LISTED == 0 {
            self.active.push(name);
        }
        for way in each_way(self.open[here]) {
            let there = self.tables.neighbour(name, way);
            if self.pointers[entry(there)] == opposite(way) {
                self.wake(there);
            }
        }
    }

    /// All offers are taken before new ones are made.
    fn flood(&mut self) {
        let room = take(&mut self.changed);
        let mut changed = replace(&mut self.offered, room);
        changed.iter().for_each(|&name| self.accept(name));
        changed.drain(..).for_each(|name| self.spread(name));
        self.changed = changed;
    }

    /// A reset node takes its own number, whatever it is offered.
    fn accept(&mut self, name: u16) {
        let here = entry(name);
        let offer = replace(&mut self.offers[here], NO_OFFER);
        if self.marks[here] == RESET {
            self.marks[here] = self.tables.mark(name);
            self.flags[here] |= UNROOTED;
            self.unrooted.push(name);
            return;
        }
        let (mark, pointer) = match offer {
            RESET_OFFER => (RESET, CENTRE),
            _ => ((offer >> 4) as u16, (offer % 16) as Way),
        };
        self.marks[here] = mark;
        if self.pointers[here] != pointer {
            self.pointers[here] = pointer;
            self.wake(name);
        }
    }

    /// The offers of a node whose mark changed. One that is now reset is busy again, and an unrooted neighbour stays.
    fn spread(&mut self, name: u16) {
        let (mark, open) = (self.marks[entry(name)], self.open[entry(name)]);
        if mark != RESET {
            return each_way(open).for_each(|way| self.compare(name, mark, way));
        }
        self.offer(name, RESET_OFFER);
        for way in each_way(open) {
            let there = self.tables.neighbour(name, way);
            if self.flags[entry(there)] & UNROOTED == 0 && self.marks[entry(there)] != RESET {
                self.offer(there, RESET_OFFER);
            }
        }
    }
}
