//! Script lines on all that needs no queue: page walks, entries, the completion reader, plain
//! checks, shows and the memory's own commands.

use crate::console::{submission_numbers, MEMORY};
use crate::entry::{Submission, STATUS_MAX};
use crate::generate::{Generator, SCRATCH};
use crate::traffic::joined;

/// A walk's numbers, in the console's order.
#[derive(Clone, Copy)]
struct WalkLine {
    prp1: u64,
    prp2: u64,
    length: u64,
    page: u64,
    room_a: u64,
    room_c: u64,
}

/// A list entry's address and value.
type Listed = (u64, u64);

impl Generator {
    /// Builds a list where one is needed and walks it, as it is and in changed ways.
    pub fn walks(&mut self) {
        let number = self.random.weighted(&[40, 18, 16, 14, 12]) as u64;
        let page = 4096 << number;
        let most = MEMORY as u64 / page + 1;
        let n = match self.random.weighted(&[10, 15, 20, 30, 18, 7]) {
            0 => 1,
            1 => 2,
            2 => 3,
            3 => self.random.within(3, 7),
            4 => self.random.within(3, 40),
            _ => self.random.within(3, 257),
        };
        let n = n.min(most);
        let offset = self.random.below(page) / 4 * 4;
        let offset = self.random.pick(&[0, 0, 4, page - 4, offset]);
        let (prp1, length) = (self.page_address(page) + offset, self.length(n, page, offset));
        let list = if n >= 3 { self.list(n, page) } else { Vec::new() };
        let prp2 = match list.first() {
            Some((at, _)) => *at,
            None => self.page_address(page),
        };
        let line = WalkLine { prp1, prp2, length, page: number, room_a: 8 * n, room_c: 4 * n };
        self.walk(line);
        for _ in 0..self.random.below(5) {
            self.changed_walk(line, n);
        }
        // In every other walk an entry in the last place of its page, which may be a pointer.
        let any_place = self.random.chance(50);
        let spoilt: Vec<Listed> =
            list.into_iter().filter(|(at, _)| any_place || at % page == page - 8).collect();
        if let Some(entry) = self.random.choose(&spoilt) {
            self.damaged_walk(line, entry, page);
        }
    }

    fn walk(&mut self, w: WalkLine) {
        let numbers = joined(&[w.prp1, w.prp2, w.length, w.page, w.room_a, w.room_c]);
        self.say(&format!("walk{numbers}"));
    }

    /// A page's address anywhere, at times the last below 2^64.
    fn page_address(&mut self, page: u64) -> u64 {
        let any = self.random.edge() / page * page;
        let low = page * self.random.below(64);
        self.random.pick(&[low, low, low, any, 0u64.wrapping_sub(page)])
    }

    /// A length that touches `n` pages from this offset on, as far as one is allowed.
    fn length(&mut self, n: u64, page: u64, offset: u64) -> u64 {
        let any = self.random.below(page);
        let cut = self.random.pick(&[0, 0, 1, page - 1, any]);
        let most = n * page - offset;
        most.saturating_sub(cut).clamp(1, MEMORY as u64)
    }

    /// Writes a list for `n` pages of data and answers its entries in reading order. It mostly
    /// begins near the end of its page, so that pointers are met, or of 4,096 bytes in it.
    fn list(&mut self, n: u64, page: u64) -> Vec<Listed> {
        let pages = (MEMORY as u64 - SCRATCH) / page;
        let places = page / 8;
        let any = self.random.below(places);
        let near = self.random.below(6);
        let inner = 512 * self.random.within(1, page / 4096) - 1 - near;
        let place = self.random.pick(&[places - 1 - near, inner, places - 1, 0, any]);
        let mut at = SCRATCH + page * self.random.below(pages) + 8 * place;
        let mut left = n - 1;
        let mut list = Vec::new();
        while left > 0 {
            if at % page == page - 8 && left > 1 {
                let next = SCRATCH + page * self.random.below(pages);
                list.push((at, next));
                at = next;
            } else {
                list.push((at, self.page_address(page)));
                at += 8;
                left -= 1;
            }
        }
        self.poke_list(&list);
        list
    }

    /// Pokes the list's entries, so many in a row as fit on a line.
    fn poke_list(&mut self, list: &[Listed]) {
        let together = |a: &Listed, b: &Listed| a.0 + 8 == b.0;
        for row in list.chunk_by(together) {
            for part in row.chunks(150) {
                let values: Vec<u64> = part.iter().map(|(_, value)| *value).collect();
                self.say(&format!("poke64 {}{}", part[0].0, joined(&values)));
            }
        }
    }

    /// The same walk with one number changed, or two; now and then with one that another
    /// refusal goes before.
    fn changed_walk(&mut self, line: WalkLine, n: u64) {
        let mut changed = line;
        for _ in 0..self.random.pick(&[1, 1, 1, 2]) {
            let edge = self.random.edge();
            let two = self.random.chance(35);
            match self.random.below(12) {
                0 => {
                    changed.room_a = 8 * n - self.random.within(1, 8);
                    changed.prp2 ^= if two { 4 } else { 0 };
                }
                1 => changed.room_c = 4 * n - self.random.within(1, 4),
                2 => {
                    (changed.room_a, changed.room_c) =
                        self.random.pick(&[(8 * n + 5, 4 * n), (65_536, 65_536), (0, 0)])
                }
                3 => {
                    changed.prp1 |= self.random.within(1, 3);
                    changed.room_a = if two { 0 } else { changed.room_a };
                }
                4 => changed.prp2 ^= self.random.pick(&[1, 4, 8, 16, 2048, 4096]),
                5 => {
                    let lifted = self.random.lifted(line.length);
                    changed.length = self.random.pick(&[0, 1_048_577, lifted, edge]);
                    changed.page = if two { 5 } else { changed.page };
                }
                6 => {
                    let lifted = self.random.lifted(line.page);
                    changed.page = self.random.pick(&[0, 1, 4, 5, 6, lifted, edge]);
                    changed.prp1 |= u64::from(two);
                }
                7 | 8 => changed.length = self.random.within(1, line.length),
                9 => {
                    changed.prp2 =
                        self.random.pick(&[u64::MAX - 7, u64::MAX - 4095, MEMORY as u64 - 8, edge])
                }
                10 => changed.prp2 = MEMORY as u64 - 8 * self.random.within(0, 4),
                _ => changed.prp1 = edge / 4 * 4,
            }
        }
        self.walk(changed);
    }

    /// Spoils one entry of the list, or lends no more than a part of the list, and walks.
    fn damaged_walk(&mut self, line: WalkLine, (at, value): Listed, page: u64) {
        match self.random.weighted(&[50, 20, 20, 10]) {
            0 => {
                // 4,096 is an offset in larger pages alone.
                let bits = self.random.pick(&[1, 8, 2048, 4096, 4096, page / 2]);
                self.say(&format!("poke64 {at} {}", value ^ bits));
                self.walk(line);
                self.say(&format!("poke64 {at} {value}"));
            }
            1 => {
                let outside = self.random.pick(&[MEMORY as u64, u64::MAX - (page - 1), 1 << 63]);
                let offset = self.random.pick(&[0, 0, 8]);
                self.say(&format!("poke64 {at} {}", outside + offset));
                self.walk(line);
            }
            2 => {
                let lent = (at + self.random.below(9)).min(MEMORY as u64);
                self.say(&format!("lend {lent}"));
                self.walk(line);
                self.say(&format!("lend {MEMORY}"));
            }
            _ => {}
        }
    }

    /// Writers and readers of entries, with rooms too short, exact and longer.
    pub fn entries(&mut self) {
        let at = self.loose_place(80);
        match self.random.below(4) {
            0 => {
                let room = self.entry_room(64);
                let line = self.any_submission(at, room);
                self.say(&line);
                self.say(&format!("peek {at} 80"));
                self.say(&format!("read-sqe {at} {room}"));
            }
            1 => {
                let edge = self.random.edge();
                let wrong = self.random.pick(&[32_768, 65_536, edge]);
                let status = if self.random.chance(65) { self.random.below(32_768) } else { wrong };
                // In every other case both are wrong.
                let short = status > STATUS_MAX && self.random.chance(50);
                let room = if short { self.random.below(16) } else { self.entry_room(16) };
                let numbers =
                    [self.random.below(1 << 32), self.random.below(65_536), self.random.below(16)];
                let (cid, tag) = (self.random.below(65_536), self.random.pick(&[0, 1, 2, 3, edge]));
                self.say(&format!(
                    "write-cqe {at} {room}{} {cid} {status} {tag}",
                    joined(&numbers)
                ));
                self.say(&format!("peek {at} 32"));
                self.say(&format!("read-cqe {at} {room}"));
            }
            kind => {
                let (name, size) = if kind == 2 { ("read-sqe", 64) } else { ("read-cqe", 16) };
                let numbers: Vec<u64> = (0..size / 8).map(|_| self.random.bits()).collect();
                self.say(&format!("poke64 {at}{}", joined(&numbers)));
                let room = self.entry_room(size);
                self.say(&format!("{name} {at} {room}"));
            }
        }
    }

    fn any_submission(&mut self, at: u64, room: u64) -> String {
        let entry = Submission {
            opc: self.random.below(256),
            fuse: self.random.edge(),
            psdt: self.random.edge(),
            cid: self.random.below(65_536),
            nsid: self.random.below(1 << 32),
            mptr: self.random.bits(),
            prp1: self.random.bits(),
            prp2: self.random.edge(),
            slba: self.random.bits(),
            nlb: self.random.below(65_536),
            cdw12_upper: self.random.below(65_536),
            cdw13: self.random.below(1 << 32),
            cdw14: self.random.below(1 << 32),
            cdw15: self.random.below(1 << 32),
        };
        format!("write-sqe {at} {room}{}", joined(&submission_numbers(&entry)))
    }

    /// A place above the rings with so many bytes of memory from it on.
    fn loose_place(&mut self, bytes: u64) -> u64 {
        let last = MEMORY as u64 - bytes;
        let any = self.random.within(SCRATCH, last);
        self.random.pick(&[any, any, any, last])
    }

    fn entry_room(&mut self, size: u64) -> u64 {
        let short = self.random.below(size);
        self.random.pick(&[size, size, size + 1, size + 16, size, size - 1, short])
    }

    /// The completion reader on a CQ's ring as a host would use it, or on other bytes.
    pub fn reader(&mut self) {
        let on_queue = self.random.chance(70);
        let Some(id) = self.random.choose(&self.cqs()).filter(|_| on_queue) else {
            return self.loose_reader();
        };
        let Some(cq) = self.console.controller.cq(id) else { return };
        // The entry at the head is of the pass before the next posting's where the tail has
        // wrapped and the head has not.
        let tag = if cq.tail < cq.head { 1 - cq.phase } else { cq.phase };
        let (base, size, head, tail) = (cq.base, cq.size, cq.head, cq.tail);
        match self.random.weighted(&[70, 12, 18]) {
            0 => {
                self.say(&format!("waiting {base} {} {size} {head} {tag}", 16 * size));
            }
            1 => {
                // A damaged tag somewhere between head and tail stops the reader there.
                let slot = (head + self.random.below(size)) % size;
                let byte = self.random.below(256);
                self.say(&format!("poke {} {byte}", base + 16 * slot + 14));
                self.say(&format!("waiting {base} {} {size} {head} {tag}", 16 * size));
            }
            _ => {
                let edge = self.random.edge();
                let room =
                    self.random.pick(&[16 * size, 16 * size, 16 * size - 1, 0, 16 * size + 16]);
                let lifted = self.random.lifted(size);
                let size =
                    self.random.pick(&[size, size, size + 1, size - 1, 0, 1, 1025, lifted, edge]);
                let lifted = self.random.lifted(head);
                let head = self.random.pick(&[head, tail, size, 0, lifted, edge]);
                let tag = self.random.pick(&[tag, 1 - tag, tag + 2, edge]);
                self.say(&format!("waiting {base} {room} {size} {head} {tag}"));
            }
        }
    }

    /// A small ring of alternating passes, now and then with one tag damaged.
    fn loose_reader(&mut self) {
        let size = if self.random.chance(90) { self.random.within(2, 9) } else { 1024 };
        let at = self.loose_place(16 * size);
        let turn = self.random.below(size + 1);
        let bytes = self.random.pick(&[[0, 1], [1, 0], [254, 255], [255, 254]]);
        self.say(&format!("fill {at} {} {}", 16 * turn, bytes[0]));
        self.say(&format!("fill {} {} {}", at + 16 * turn, 16 * (size - turn), bytes[1]));
        if self.random.chance(40) {
            let (slot, byte) = (self.random.below(size), self.random.below(256));
            self.say(&format!("poke {} {byte}", at + 16 * slot + 14));
        }
        for _ in 0..self.random.within(1, 3) {
            let head =
                if self.random.chance(90) { self.random.below(size) } else { self.random.edge() };
            let tag =
                if self.random.chance(85) { self.random.below(2) } else { self.random.edge() };
            let less = self.random.pick(&[0, 0, 0, 0, 0, 0, 0, 0, 1, 16]);
            self.say(&format!("waiting {at} {} {size} {head} {tag}", 16 * size - less));
        }
    }

    /// The plain doorbell checks, mostly on small rings where every case is met.
    pub fn plain_check(&mut self) {
        let size =
            if self.random.chance(85) { self.random.within(2, 8) } else { self.random.edge() };
        let (head, tail) = (self.place(size), self.place(size));
        let (name, held) = self.random.pick(&[("check-tail", tail), ("check-head", head)]);
        let others = [self.place(size), self.place(size)];
        let other = others.into_iter().find(|place| *place != held);
        let value = other.filter(|_| !self.random.chance(10)).unwrap_or(held);
        self.say(&format!("{name} {size} {head} {tail} {value}"));
    }

    /// Mostly a place in a ring of this size.
    fn place(&mut self, size: u64) -> u64 {
        let below = self.random.below(size);
        let edge = self.random.edge();
        match self.random.weighted(&[90, 5, 2, 3]) {
            0 => below,
            1 => size,
            2 => self.random.lifted(below),
            _ => edge,
        }
    }

    pub fn show(&mut self) {
        match self.random.below(4) {
            0 => self.show_one("show-sq", 15),
            1 => self.show_one("show-cq", 15),
            2 => self.show_one("show-tag", 63),
            _ => self.show_turns(100),
        }
    }

    /// Looks at turns and credits, in so many cases of a hundred.
    pub fn show_turns(&mut self, percent: u64) {
        if self.random.chance(percent) {
            self.say("show-arbiter");
        }
    }

    /// Mostly a low number, where something is to be seen.
    fn show_one(&mut self, name: &str, most: u64) {
        let low = self.random.below(5);
        let any = self.random.within(0, most);
        let number = self.random.pick(&[low, low, any, most + u64::from(any == 0)]);
        self.say(&format!("{name} {number}"));
    }

    /// The memory's own commands, within and at the edge of what is lent.
    pub fn memory(&mut self) {
        let lent = self.console.lent as u64;
        let at = match self.random.weighted(&[80, 10, 10]) {
            0 => self.loose_place(1024),
            1 => lent.saturating_sub(self.random.below(20)),
            _ => self.random.edge(),
        };
        let count = match self.random.weighted(&[70, 15, 15]) {
            0 => self.random.below(40),
            1 => self.random.pick(&[0, 1, 1023, 1024, 1025]),
            _ => self.random.edge(),
        };
        let byte = self.random.within(0, 256).saturating_sub(u64::from(self.random.chance(90)));
        match self.random.below(4) {
            0 => self.say(&format!("peek {at} {count}")),
            1 => self.say(&format!("fill {at} {} {byte}", count.min(1024))),
            2 => {
                let bytes: Vec<u64> =
                    (0..self.random.below(20)).map(|_| self.random.below(256)).collect();
                self.say(&format!("poke {at} {byte}{}", joined(&bytes)))
            }
            _ => {
                let numbers: Vec<u64> =
                    (0..self.random.within(1, 8)).map(|_| self.random.edge()).collect();
                self.say(&format!("poke64 {at}{}", joined(&numbers)))
            }
        };
    }
}
