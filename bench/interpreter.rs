//! A plain interpreter of RV32I and the A extension, to time the proved program beside: the same images, the
//! same report with a line for each access, harts in rotation over one flat memory, and nothing proved. It checks
//! what the program checks (fetch within the segment, traps of accesses in their order), and so does the same
//! work. Usage: interpreter IMAGE [CLUSTERS HARTS BUDGET]

use std::env;
use std::fs;
use std::io::{self, Write};
use std::process::exit;

const MEMORY: u32 = 1 << 20;
const LOCKS: u32 = 4 * 64;
const BUDGET: u32 = 1_000_000;

struct Image {
    entry: u32,
    first: u32,
    bytes: Vec<u8>,
    has_stores: bool,
}

impl Image {
    /// Reads the one segment; the file is taken to be an accepted image.
    fn read(file: &[u8]) -> Option<Image> {
        let word = |at: usize| Some(u32::from_le_bytes(file.get(at..at + 4)?.try_into().ok()?));
        let header = word(28)? as usize;
        let offset = word(header + 4)? as usize;
        let size = word(header + 16)? as usize;
        Some(Image {
            entry: word(24)?,
            first: word(header + 8)?,
            bytes: file.get(offset..offset.checked_add(size)?)?.to_vec(),
            has_stores: word(header + 24)? & 2 != 0,
        })
    }

    fn fetch(&self, pc: u32) -> Option<u32> {
        let at = pc.checked_sub(self.first)? as usize;
        let bytes = self.bytes.get(at..at.checked_add(4)?)?;
        Some(u32::from_le_bytes(bytes.try_into().ok()?))
    }

    fn is_writable(&self, address: u32, size: u32) -> bool {
        let end = self.first + self.bytes.len() as u32;
        self.has_stores || address + size <= self.first || end <= address
    }
}

enum End {
    Exit(u32),
    Trap(&'static str, u32),
    /// The hart asks for a lock word that is not 0.
    Wait,
}

/// Which instruction of which hart makes an access.
#[derive(Clone, Copy)]
struct At {
    hart: usize,
    number: u32,
}

struct Access {
    at: At,
    op: &'static str,
    labels: &'static str,
    address: u32,
    size: u32,
    read: Option<u32>,
    written: Option<u32>,
}

struct Machine {
    image: Image,
    memory: Vec<u8>,
    locks: Vec<u32>,
    reserved: Vec<Option<u32>>,
    console: Vec<u8>,
    accesses: Vec<Access>,
}

impl Machine {
    fn check(&self, address: u32, size: u32, is_store: bool) -> Result<(), End> {
        if address % size != 0 {
            return Err(End::Trap("misaligned", address));
        }
        if (MEMORY..MEMORY + LOCKS).contains(&address) {
            return Err(End::Trap("lockuse", address));
        }
        if address >= MEMORY {
            return Err(End::Trap("unmapped", address));
        }
        if is_store && !self.image.is_writable(address, size) {
            return Err(End::Trap("readonly", address));
        }
        Ok(())
    }

    fn bytes(&self, address: u32, size: u32) -> u32 {
        let mut value = [0; 4];
        let at = address as usize;
        value[..size as usize].copy_from_slice(&self.memory[at..at + size as usize]);
        u32::from_le_bytes(value)
    }

    fn write(&mut self, at: At, address: u32, size: u32, value: u32) {
        let place = address as usize;
        self.memory[place..place + size as usize].copy_from_slice(&value.to_le_bytes()[..size as usize]);
        for (hart, reserved) in self.reserved.iter_mut().enumerate() {
            if hart != at.hart && *reserved == Some(address & !3) {
                *reserved = None;
            }
        }
    }

    fn load(&mut self, at: At, address: u32, size: u32) -> Result<u32, End> {
        self.check(address, size, false)?;
        let value = self.bytes(address, size);
        self.accesses.push(Access { at, op: "load", labels: "-", address, size, read: Some(value), written: None });
        Ok(value)
    }

    fn store(&mut self, at: At, address: u32, size: u32, value: u32) -> Result<(), End> {
        self.check(address, size, true)?;
        self.write(at, address, size, value);
        let value = self.bytes(address, size);
        self.accesses.push(Access { at, op: "store", labels: "-", address, size, read: None, written: Some(value) });
        Ok(())
    }

    /// What LR, SC or another atomic operation on the word at an address answers.
    fn atomic(&mut self, at: At, word: u32, address: u32, operand: u32) -> Result<u32, End> {
        let funct5 = word >> 27;
        let is_row = match funct5 {
            0 | 1 | 3 | 4 | 8 | 12 | 16 | 20 | 24 | 28 => true,
            2 => word >> 20 & 31 == 0,
            _ => false,
        };
        if !is_row {
            return Err(End::Trap("illegal", word));
        }
        let labels = ["-", "r", "a", "ar"][(word >> 25 & 3) as usize];
        let access = |op, read, written| Access { at, op, labels, address, size: 4, read, written };
        if funct5 == 2 {
            self.check(address, 4, false)?;
            let value = self.bytes(address, 4);
            self.reserved[at.hart] = Some(address);
            self.accesses.push(access("lr", Some(value), None));
            return Ok(value);
        }
        if address % 4 == 0 && (MEMORY..MEMORY + LOCKS).contains(&address) {
            let lock = &mut self.locks[((address - MEMORY) / 4) as usize];
            let old = *lock;
            let op = match (funct5, labels, operand) {
                (1, "a", 1..) if old != 0 => return Err(End::Wait),
                (1, "a", 1..) => "ask",
                (1, "r", 0) => "unlock",
                _ => return Err(End::Trap("lockuse", address)),
            };
            *lock = operand;
            self.accesses.push(access(op, Some(old), Some(operand)));
            return Ok(old);
        }
        self.check(address, 4, true)?;
        if funct5 == 3 {
            let succeeds = self.reserved[at.hart].take() == Some(address);
            self.accesses.push(access("sc", None, succeeds.then_some(operand)));
            if succeeds {
                self.write(at, address, 4, operand);
            }
            return Ok(!succeeds as u32);
        }
        let old = self.bytes(address, 4);
        let new = match funct5 {
            0 => old.wrapping_add(operand),
            1 => operand,
            4 => old ^ operand,
            8 => old | operand,
            12 => old & operand,
            16 => (old as i32).min(operand as i32) as u32,
            20 => (old as i32).max(operand as i32) as u32,
            24 => old.min(operand),
            _ => old.max(operand),
        };
        self.write(at, address, 4, new);
        self.accesses.push(access("amo", Some(old), Some(new)));
        Ok(old)
    }
}

struct Hart {
    number: usize,
    pc: u32,
    registers: [u32; 32],
    retired: u32,
    end: Option<End>,
}

impl Hart {
    fn at(&self) -> At {
        At { hart: self.number, number: self.retired + 1 }
    }

    fn step(&mut self, machine: &mut Machine) -> Result<(), End> {
        let word = machine.image.fetch(self.pc).ok_or(End::Trap("fetch", self.pc))?;
        let (rd, funct3, funct7) = ((word >> 7) as usize & 31, word >> 12 & 7, word >> 25);
        let a = self.registers[(word >> 15) as usize & 31];
        let b = self.registers[(word >> 20) as usize & 31];
        let immediate = ((word as i32) >> 20) as u32;
        let mut next = self.pc.wrapping_add(4);
        let result = match word & 127 {
            0x37 => word & !4095,
            0x17 => self.pc.wrapping_add(word & !4095),
            0x6f => {
                let offset = ((word as i32) >> 31 << 20) as u32
                    | word & 0xff000
                    | word >> 9 & 0x800
                    | word >> 20 & 0x7fe;
                let link = next;
                next = self.pc.wrapping_add(offset);
                link
            }
            0x67 if funct3 == 0 => {
                let link = next;
                next = a.wrapping_add(immediate) & !1;
                link
            }
            0x63 if funct3 & 6 != 2 => {
                let holds = match funct3 >> 1 {
                    0 => a == b,
                    2 => (a as i32) < b as i32,
                    _ => a < b,
                };
                if holds != (funct3 & 1 == 1) {
                    let offset = ((word as i32) >> 31 << 12) as u32
                        | word << 4 & 0x800
                        | word >> 20 & 0x7e0
                        | word >> 7 & 0x1e;
                    next = self.pc.wrapping_add(offset);
                }
                return self.go(next, 0, 0);
            }
            0x03 => {
                let address = a.wrapping_add(immediate);
                match funct3 {
                    0 => machine.load(self.at(), address, 1)? as i8 as u32,
                    1 => machine.load(self.at(), address, 2)? as i16 as u32,
                    2 => machine.load(self.at(), address, 4)?,
                    4 => machine.load(self.at(), address, 1)?,
                    5 => machine.load(self.at(), address, 2)?,
                    _ => return Err(End::Trap("illegal", word)),
                }
            }
            0x23 if funct3 <= 2 => {
                let offset = ((word as i32) >> 25 << 5) as u32 | word >> 7 & 31;
                machine.store(self.at(), a.wrapping_add(offset), 1 << funct3, b)?;
                return self.go(next, 0, 0);
            }
            0x13 if funct3 & 3 != 1 || funct7 == 0 || funct7 == 32 && funct3 == 5 => {
                arithmetic(funct3, funct3 == 5 && funct7 == 32, a, immediate)
            }
            0x33 if funct7 == 0 => arithmetic(funct3, false, a, b),
            0x33 if funct7 == 32 && funct3 == 0 => a.wrapping_sub(b),
            0x33 if funct7 == 32 && funct3 == 5 => arithmetic(funct3, true, a, b),
            0x2f if funct3 == 2 => machine.atomic(self.at(), word, a, b)?,
            0x0f if funct3 == 0 => return self.go(next, 0, 0),
            0x73 if word == 0x73 => match self.registers[17] {
                1 => {
                    machine.console.push(self.registers[10] as u8);
                    return self.go(next, 0, 0);
                }
                93 => return Err(End::Exit(self.registers[10])),
                number => return Err(End::Trap("badcall", number)),
            },
            0x73 if word == 0x100073 => return Err(End::Trap("break", 0)),
            _ => return Err(End::Trap("illegal", word)),
        };
        self.go(next, rd, result)
    }

    fn go(&mut self, next: u32, rd: usize, result: u32) -> Result<(), End> {
        if next % 4 != 0 {
            return Err(End::Trap("misaligned", next));
        }
        if rd != 0 {
            self.registers[rd] = result;
        }
        self.pc = next;
        self.retired += 1;
        Ok(())
    }
}

fn arithmetic(funct3: u32, is_signed_shift: bool, a: u32, b: u32) -> u32 {
    match funct3 {
        0 => a.wrapping_add(b),
        1 => a << (b & 31),
        2 => ((a as i32) < b as i32) as u32,
        3 => (a < b) as u32,
        4 => a ^ b,
        5 if is_signed_shift => ((a as i32) >> (b & 31)) as u32,
        5 => a >> (b & 31),
        6 => a | b,
        _ => a & b,
    }
}

fn hexadecimal(text: &mut Vec<u8>, value: u32) {
    text.extend((0..8).rev().map(|digit| b"0123456789abcdef"[(value >> (4 * digit) & 15) as usize]));
}

fn write_access(text: &mut Vec<u8>, access: &Access) -> io::Result<()> {
    let place = access.address % 4;
    write!(text, "{} {} {} {} ", access.at.hart, access.at.number, access.op, access.labels)?;
    hexadecimal(text, access.address - place);
    write!(text, " {:x} ", ((1 << access.size) - 1) << place)?;
    for value in [access.read, access.written] {
        match value {
            Some(value) => hexadecimal(text, value << (8 * place)),
            None => text.push(b'-'),
        }
        text.push(b' ');
    }
    text.extend(b"-\n");
    Ok(())
}

fn main() -> io::Result<()> {
    let words: Vec<String> = env::args().skip(1).collect();
    let (name, numbers) = words.split_first().expect("usage: interpreter IMAGE [CLUSTERS HARTS BUDGET]");
    let numbers: Vec<u32> = numbers.iter().map(|number| number.parse().expect("a number")).collect();
    let (count, budget) = match numbers[..] {
        [clusters, harts, budget] => (clusters * harts, budget),
        _ => (1, BUDGET),
    };
    let image = Image::read(&fs::read(name)?).expect("an accepted image");
    let mut memory = vec![0; MEMORY as usize];
    memory[image.first as usize..][..image.bytes.len()].copy_from_slice(&image.bytes);
    let stack = MEMORY / (4 * count) / 16 * 16;
    let opening = |number: u32| {
        let mut registers = [0; 32];
        registers[2] = MEMORY - number * stack;
        registers[10] = number;
        registers[11] = count;
        Hart { number: number as usize, pc: image.entry, registers, retired: 0, end: None }
    };
    let mut harts: Vec<Hart> = (0..count).map(opening).collect();
    let mut machine = Machine {
        image,
        memory,
        locks: vec![0; (LOCKS / 4) as usize],
        reserved: vec![None; count as usize],
        console: Vec::new(),
        accesses: Vec::new(),
    };
    let mut goes = true;
    while goes {
        goes = false;
        for hart in &mut harts {
            if hart.end.is_none() && hart.retired < budget {
                match hart.step(&mut machine) {
                    Err(End::Wait) => continue,
                    Err(end) => {
                        hart.retired += matches!(end, End::Exit(_)) as u32;
                        hart.end = Some(end);
                    }
                    Ok(()) => (),
                }
                goes = true;
            }
        }
    }
    let mut report = format!("console {}\n", machine.console.len()).into_bytes();
    report.extend(&machine.console);
    report.push(b'\n');
    let mut status = 0;
    for hart in &harts {
        let (end, its_status) = match hart.end {
            Some(End::Exit(code)) => (format!("exit {code:08x}"), 0),
            Some(End::Trap(cause, value)) => (format!("trap {cause} {value:08x}"), 11),
            _ if hart.retired < budget => ("waits".to_string(), 12),
            _ => ("budget".to_string(), 10),
        };
        // In this order a status replaces those before it.
        let rank = |status| [0, 12, 10, 11].iter().position(|&other| other == status);
        if rank(its_status) > rank(status) {
            status = its_status;
        }
        writeln!(report, "hart {} {end} pc {:08x} retired {}", hart.number, hart.pc, hart.retired)?;
        for (number, row) in hart.registers.chunks(8).enumerate() {
            let words: Vec<String> = row.iter().map(|word| format!("{word:08x}")).collect();
            writeln!(report, "x{} {}", 8 * number, words.join(" "))?;
        }
    }
    writeln!(report, "status {status}\naccesses {}", machine.accesses.len())?;
    for access in &machine.accesses {
        write_access(&mut report, access)?;
    }
    io::stdout().write_all(&report)?;
    exit(status)
}
