//! Scenarios of RULES 13: frames of every type in every state, cycles of them, frames that make an action come first, and
//! bytes that are no frame.

use super::{
    ALL_STATES, BASIC_ETHERNET, CYCLIC, OPERATIONAL, PRE_OPERATIONAL_2, READY_TO_OPERATE, Script,
    THRESHOLD_KINDS, TOP, WAIT_SOA, WAIT_SOC,
};
use crate::view::View;
use std::fmt::Write;
use std::io;

const ETHER_TYPE: [u8; 2] = [0x88, 0xAB];
const SOC: u8 = 1;
const PREQ: u8 = 3;
const PRES: u8 = 4;
const SOA: u8 = 5;
const ASND: u8 = 6;
const TYPES: [u8; 5] = [SOC, PREQ, PRES, SOA, ASND];
/// AMNI and AInv, a bit that is not a type's, and numbers between.
const OTHER_TYPES: [u8; 12] = [0, 2, 7, 8, 0x0D, 0x81, 0x83, 0x84, 0x85, 0x86, 0x7F, 0xFF];

const NMT_COMMAND: u8 = 4;
const SERVICES: [u8; 10] = [1, 2, 3, 5, 0, 6, 7, 0x84, 0xA0, 0xFF];
const COMMANDS: [u8; 8] = [0x21, 0x22, 0x23, 0x24, 0x28, 0x29, 0x2A, 0x2B];
const RESETS: [u8; 4] = [0x28, 0x29, 0x2A, 0x2B];
const ENABLE: [u8; 2] = [0x21, 0x24];
/// Of the managing node, with a bit more, and between.
const OTHER_COMMANDS: [u8; 12] = [
    0x62, 0x63, 0x62, 0x63, 0, 0x20, 0x25, 0x2C, 0xA1, 0xA8, 0x90, 0xFF,
];

const PLACES_OF_LOSSES: [usize; 3] = [1, 2, 3];
const LONGEST: usize = 1518;

/// Lines that are not to be read, as they stand.
const UNREADABLE: [&str; 18] = [
    "frame",
    "frame ",
    "frame 5",
    "frame 5 ",
    "frame 5 0",
    "frame 5 000",
    "frame 5 0G",
    "frame 5 0x00",
    "frame 5 00 00",
    "frame 5 00 ",
    "frame 5  00",
    "frame  5 00",
    "frame 5 --",
    "frame - 00",
    "frame -1 00",
    "frame 18446744073709551616 00",
    "frame 18446744073709551616 -",
    "Frame 5 -",
];

impl Script<'_> {
    /// No frame may be given before the first start.
    pub(super) fn frames_before_the_first_start(&mut self) -> io::Result<()> {
        let lines = [
            "frame 5 -",
            "frame 5 00000000000000000000000088AB01FFF0",
            "frame 18446744073709551615 00000000000000000000000088AB060700",
        ];
        lines.iter().try_for_each(|line| self.give(line))
    }

    pub(super) fn frames(&mut self) -> io::Result<()> {
        match self.random.below(20) {
            0..5 => self.frames_in_states(),
            5..8 => self.cycles_of_frames(),
            8..12 => self.actions_first(),
            12..14 => self.commands(),
            14 => self.frames_out_of_the_cycle(),
            15..18 => self.no_frames(),
            18 => self.frames_at_the_top(),
            _ => self.unreadable_frames(),
        }
    }

    fn frame(&mut self, time: u64, bytes: &[u8]) -> io::Result<()> {
        let time = self.number(time);
        let lower = self.random.one_in(4);
        let mut line = format!("frame {time} ");
        for byte in bytes {
            let written = if lower {
                write!(line, "{byte:02x}")
            } else {
                write!(line, "{byte:02X}")
            };
            written.expect("text takes more");
        }
        if bytes.is_empty() {
            line.push('-');
        }
        self.call(&line)
    }

    /// The head's own number, or that of all.
    fn to_the_head(&mut self) -> u8 {
        let node = self.head.view().map_or(255, |view| view.node);
        self.random.pick(&[node, node, 255])
    }

    /// A number that is most likely another node's.
    fn to_another(&mut self) -> u8 {
        let any = self.random.below(256) as u8;
        self.random.pick(&[any, any, 0, 240, 254])
    }

    /// A frame of a type from its payload, with something behind it at times.
    fn laid(&mut self, kind: u8, destination: u8, payload: &[u8]) -> Vec<u8> {
        let mut bytes: Vec<u8> = if self.random.one_in(3) {
            (0..12).map(|_| self.random.below(256) as u8).collect()
        } else {
            vec![0; 12]
        };
        bytes.extend(ETHER_TYPE);
        let source = self.random.pick(&[240, 240, 0, 17, 255]);
        bytes.extend([kind, destination, source]);
        bytes.extend(payload);
        let behind = match self.random.below(60) {
            0 => LONGEST - bytes.len(),
            1..4 => 60 - bytes.len(),
            4..20 => self.random.below(6) as usize,
            _ => 0,
        };
        bytes.extend((0..behind).map(|_| self.random.below(256) as u8));
        bytes
    }

    /// What an ASnd carries: mostly a command, or another service.
    fn carried(&mut self) -> Vec<u8> {
        let command = self.random.pick(&COMMANDS);
        match self.random.below(5) {
            0..2 => vec![NMT_COMMAND, command],
            _ => vec![self.random.pick(&SERVICES)],
        }
    }

    fn of_type(&mut self, kind: u8, destination: u8) -> Vec<u8> {
        let payload = if kind == ASND {
            self.carried()
        } else {
            vec![]
        };
        self.laid(kind, destination, &payload)
    }

    fn command(&mut self, command: u8, destination: u8) -> Vec<u8> {
        self.laid(ASND, destination, &[NMT_COMMAND, command])
    }

    /// A frame for the head, as an application gives it.
    fn received(&mut self, kind: u8) -> io::Result<()> {
        let destination = self.to_the_head();
        let bytes = self.of_type(kind, destination);
        let now = self.later();
        self.frame(now, &bytes)
    }

    /// One frame in an NMT and a DLL state.
    fn frames_in_states(&mut self) -> io::Result<()> {
        for _ in 0..1 + self.random.below(4) {
            let target = match self.random.below(8) {
                0 => self.random.pick(&ALL_STATES),
                _ => self.random.pick(&CYCLIC),
            };
            let state = self.random.below(4) as u8;
            self.go_to_dll(target, state)?;
            let kind = self.random.pick(&TYPES);
            self.received(kind)?;
        }
        Ok(())
    }

    /// The frames of a cycle one behind another, some left out, with ticks between them.
    fn cycles_of_frames(&mut self) -> io::Result<()> {
        self.useful_cycle()?;
        let target = self.random.pick(&ALL_STATES);
        self.go_to(target)?;
        for _ in 0..2 + self.random.below(4) {
            for kind in [SOC, PREQ, PRES, SOA, ASND] {
                match self.random.below(8) {
                    0 => {}
                    1 => {
                        let time = self.time_near_the_deadline();
                        self.tick(time)?;
                    }
                    _ => self.received(kind)?,
                }
            }
        }
        Ok(())
    }

    /// Raises the levels of the losses so far that the next of each crosses.
    fn raise_losses(&mut self) -> io::Result<()> {
        for place in PLACES_OF_LOSSES {
            let short = |view: &View| view.levels[place] + 8 < view.thresholds[place];
            for _ in 0..6 {
                if !self.head.view().as_ref().is_some_and(short) {
                    break;
                }
                self.error(THRESHOLD_KINDS[place])?;
            }
        }
        Ok(())
    }

    /// Frames whose errors cross, mostly, before what else they carry.
    fn actions_first(&mut self) -> io::Result<()> {
        self.raise_losses()?;
        let state = self.random.below(3) as u8 + WAIT_SOC;
        let target = self.random.pick(&[
            PRE_OPERATIONAL_2,
            READY_TO_OPERATE,
            OPERATIONAL,
            CYCLIC[0],
        ]);
        self.go_to_dll(target, state)?;
        if self.random.one_in(2) {
            self.useful_cycle()?;
            let now = self.later();
            self.call1("arm", now)?;
        }
        let destination = self.to_the_head();
        let bytes = match self.random.below(4) {
            0 | 1 if state != WAIT_SOA => {
                let command = self.random.pick(&RESETS);
                self.command(command, destination)
            }
            2 => self.of_type(SOC, destination),
            _ => {
                let kind = self.random.pick(&TYPES);
                self.of_type(kind, destination)
            }
        };
        let now = self.later();
        self.frame(now, &bytes)?;
        let time = self.time_near_the_deadline();
        self.tick(time)
    }

    /// Commands in any state; what the application has said before counts at two of them.
    fn commands(&mut self) -> io::Result<()> {
        for _ in 0..2 + self.random.below(4) {
            let target = match self.random.below(3) {
                0 => PRE_OPERATIONAL_2,
                _ => self.random.pick(&ALL_STATES),
            };
            self.go_to_flags(target)?;
            let any = self.random.pick(&COMMANDS);
            let enable = self.random.pick(&ENABLE);
            let command = self.random.pick(&[any, any, enable]);
            let destination = self.to_the_head();
            let bytes = self.command(command, destination);
            let now = self.later();
            self.frame(now, &bytes)?;
        }
        Ok(())
    }

    /// Frames where no cycle runs; in BasicEthernet an SoC arms.
    fn frames_out_of_the_cycle(&mut self) -> io::Result<()> {
        let any = self.random.pick(&ALL_STATES);
        let target = self.random.pick(&[any, BASIC_ETHERNET]);
        self.go_to(target)?;
        if self.random.one_in(3) {
            self.call("load cycle 0")?;
        } else {
            self.useful_cycle()?;
        }
        for _ in 0..1 + self.random.below(3) {
            let any = self.random.pick(&TYPES);
            let kind = self.random.pick(&[any, SOC]);
            self.received(kind)?;
            let time = self.time_near_the_deadline();
            self.tick(time)?;
        }
        Ok(())
    }

    /// Bytes that are declined, some for more than one reason, and frames for other nodes.
    fn no_frames(&mut self) -> io::Result<()> {
        for _ in 0..2 + self.random.below(5) {
            let above = self.random.pick(&[TOP + 1, 1 << 63, u64::MAX]);
            let now = self.later();
            let time = self.random.pick(&[now, above]);
            let bytes = self.bytes_of_no_frame();
            self.frame(time, &bytes)?;
        }
        Ok(())
    }

    fn bytes_of_no_frame(&mut self) -> Vec<u8> {
        let (ours, other) = (self.to_the_head(), self.to_another());
        let destination = self.random.pick(&[ours, other]);
        let kind = self.random.pick(&TYPES);
        let mut bytes = self.of_type(kind, destination);
        match self.random.below(12) {
            0 | 1 => {
                let length = self.random.pick(&[0, 0, 1, 13, 14, 15, 16, 16]);
                bytes.truncate(length);
                if self.random.one_in(2) && length > 13 {
                    bytes[13] = self.random.pick(&[0, 0xAC]);
                }
            }
            2 | 3 => {
                let place = 12 + self.random.below(2) as usize;
                bytes[place] ^= 1 << self.random.below(8);
                if self.random.one_in(3) {
                    bytes[14] = self.random.pick(&OTHER_TYPES);
                }
            }
            4 | 5 => bytes[14] = self.random.pick(&OTHER_TYPES),
            6 => {
                let place = self.random.below(bytes.len() as u64) as usize;
                bytes[place] ^= 1 << self.random.below(8);
            }
            7 => {
                bytes[14] = ASND;
                bytes.truncate(17);
            }
            8 => {
                bytes[14] = ASND;
                bytes.truncate(17);
                bytes.push(NMT_COMMAND);
            }
            9 | 10 => {
                let command = self.random.pick(&OTHER_COMMANDS);
                bytes = self.command(command, destination);
            }
            _ => {}
        }
        bytes
    }

    /// Frames that arrive at the last time that is taken, and behind it.
    fn frames_at_the_top(&mut self) -> io::Result<()> {
        for _ in 0..1 + self.random.below(4) {
            let time = self.random.pick(&[TOP - 1, TOP, TOP, TOP + 1, u64::MAX]);
            let kind = self.random.pick(&TYPES);
            let (ours, other) = (self.to_the_head(), self.to_another());
            let destination = self.random.pick(&[ours, ours, ours, other]);
            let bytes = self.of_type(kind, destination);
            self.frame(time, &bytes)?;
        }
        Ok(())
    }

    fn unreadable_frames(&mut self) -> io::Result<()> {
        for _ in 0..1 + self.random.below(3) {
            let line = match self.random.below(8) {
                0 => format!("frame 5 {}", "00".repeat(LONGEST + 1)),
                1 => format!("frame 5 {}0", "00".repeat(LONGEST)),
                _ => self.random.pick(&UNREADABLE).to_string(),
            };
            self.call(&line)?;
        }
        Ok(())
    }
}
