//! `drive NUMBER WANTS` as a plain program: the same wants, the same frames of bytes, the same losses and the same four lines,
//! without a proof. SPEED.md holds the command beside it. Build it by `rustc -O`.

use std::collections::VecDeque;

const DLE: u8 = 0x10;
const STX: u8 = 0x02;
const ETX: u8 = 0x03;
const DESTINATIONS: usize = 32;
const MOST_SENT: u32 = 4096;

/// One way of the line: frames of bytes, of which every so many-th is lost as it is put.
struct Way {
    every: u32,
    count: u32,
    frames: VecDeque<Vec<u8>>,
}

impl Way {
    fn new(every: u32) -> Way {
        Way { every, count: 0, frames: VecDeque::new() }
    }

    fn put(&mut self, data: &[u8]) {
        self.count += 1;
        if self.count % self.every != 0 {
            self.frames.push_back(frame_of(data));
        }
    }

    fn take(&mut self) -> Option<Vec<u8>> {
        self.frames.pop_front().and_then(|frame| data_of(&frame))
    }
}

/// The frame of DATA: its count of bytes and its check byte behind it, each DLE twice.
fn frame_of(data: &[u8]) -> Vec<u8> {
    let count = data.len() as u8;
    let sum = data.iter().fold(count, |sum, byte| sum.wrapping_add(*byte));
    let mut frame = vec![DLE, STX];
    for byte in data.iter().copied().chain([count, sum.wrapping_neg()]) {
        frame.push(byte);
        if byte == DLE {
            frame.push(DLE);
        }
    }
    frame.extend([DLE, ETX]);
    frame
}

/// The DATA of a good frame.
fn data_of(frame: &[u8]) -> Option<Vec<u8>> {
    let inner = frame.strip_prefix(&[DLE, STX])?.strip_suffix(&[DLE, ETX])?;
    let mut data = Vec::new();
    let mut bytes = inner.iter();
    while let Some(byte) = bytes.next() {
        data.push(*byte);
        if *byte == DLE && bytes.next() != Some(&DLE) {
            return None;
        }
    }
    let sum = data.iter().fold(0u8, |sum, byte| sum.wrapping_add(*byte));
    let _check = data.pop()?;
    let count = data.pop()?;
    (sum == 0 && usize::from(count) == data.len()).then_some(data)
}

/// A message about a crosspoint: a connect (2), or that it was made (4).
fn message_of(command: u8, dest: u16, source: u16) -> [u8; 4] {
    [command, 0, ((dest / 128) << 4 | source / 128) as u8, (dest % 128) as u8]
}

fn spelled(command: u8, dest: u16, source: u16) -> Vec<u8> {
    let mut data = message_of(command, dest, source).to_vec();
    data.push((source % 128) as u8);
    data
}

/// The command, the destination and the source of a message.
fn read(data: &[u8]) -> Option<(u8, u16, u16)> {
    let [command, _place, numbers, dest, source] = data else { return None };
    let high = u16::from(*numbers);
    Some((*command, (high >> 4 & 7) * 128 + u16::from(*dest), (high & 7) * 128 + u16::from(*source)))
}

#[derive(Default)]
struct Driver {
    wanted: [Option<u16>; DESTINATIONS],
    settled: [Option<u16>; DESTINATIONS],
    outstanding: Option<(u16, u16)>,
}

impl Driver {
    fn send(&mut self, dest: u16, source: u16) -> Option<Vec<u8>> {
        self.settled[usize::from(dest)] = None;
        self.outstanding = Some((dest, source));
        Some(spelled(2, dest, source))
    }

    fn want(&mut self, dest: u16, source: u16) -> Option<Vec<u8>> {
        self.wanted[usize::from(dest)] = Some(source);
        if self.outstanding.is_some() || self.settled[usize::from(dest)] == Some(source) {
            return None;
        }
        self.send(dest, source)
    }

    fn hear(&mut self, data: &[u8]) -> Option<Vec<u8>> {
        let (dest, source) = self.outstanding?;
        if read(data)? != (4, dest, source) {
            return None;
        }
        self.settled[usize::from(dest)] = Some(source);
        self.outstanding = None;
        let next = (0..DESTINATIONS).find(|at| self.wanted[*at].is_some() && self.wanted[*at] != self.settled[*at])?;
        self.send(next as u16, self.wanted[next]?)
    }

    fn again(&self) -> Option<Vec<u8>> {
        self.outstanding.map(|(dest, source)| spelled(2, dest, source))
    }
}

fn main() {
    let mut words = std::env::args().skip(1).map(|word| word.parse::<u64>().expect("a number"));
    let (number, wants) = (words.next().expect("NUMBER"), words.next().expect("WANTS"));
    let mut driver = Driver::default();
    let mut carried = [None; DESTINATIONS];
    let (mut to_frame, mut to_driver) = (Way::new(3), Way::new(5));
    for place in 0..wants {
        if let Some(data) = driver.want((place % 32) as u16, ((number + place) % 32) as u16) {
            to_frame.put(&data);
        }
    }
    while driver.outstanding.is_some() && to_frame.count < MOST_SENT {
        let answer = if let Some(data) = to_driver.take() {
            driver.hear(&data)
        } else if let Some(data) = to_frame.take() {
            if let Some((2, dest, source)) = read(&data) {
                carried[usize::from(dest)] = Some(source);
                to_driver.put(&spelled(4, dest, source));
            }
            None
        } else {
            driver.again()
        };
        if let Some(data) = answer {
            to_frame.put(&data);
        }
    }
    let settled = driver.settled.iter().flatten().count();
    let agree = (0..DESTINATIONS).filter(|at| driver.settled[*at].is_some() && driver.settled[*at] == carried[*at]).count();
    println!("wants {wants}\nsent {}\nsettled {settled}\nagree {agree}", to_frame.count);
}
