//! The archives' entries, behind a process that links them (`bridge.c`): loading, the sweep, connection, and whole sheets.
use super::boolean::Operation;
use inputs::sheets::Edge;
use std::io::{BufReader, BufWriter, Read, Write};
use std::process::{Child, ChildStdin, ChildStdout, Command, Stdio};

/// A refusal: its number and place.
pub type Refused = (u64, u64);

pub struct Bridge {
    process: Child,
    to: BufWriter<ChildStdin>,
    from: BufReader<ChildStdout>,
}

#[derive(Clone)]
pub struct Pool {
    pub points: Vec<[f64; 2]>,
    pub marks: Vec<[u32; 12]>,
}

/// What the numbers of a record mean.
#[derive(PartialEq)]
pub struct Record {
    pub point: [f64; 2],
    pub left: bool,
    pub subject: bool,
    pub ring: u32,
    pub partner: usize,
    pub below: Option<usize>,
    pub edge_type: u32,
    pub transition: u32,
    pub in_out: bool,
    pub other_in_out: bool,
    pub contour: Option<u32>,
}

impl Pool {
    pub fn of(size: usize) -> Pool {
        Pool { points: vec![[0.0; 2]; size], marks: vec![[0; 12]; size] }
    }

    pub fn record(&self, i: usize) -> Record {
        let m = self.marks[i];
        Record {
            point: self.points[i],
            left: m[0] == 1,
            subject: m[1] == 1,
            ring: m[2],
            partner: m[3] as usize,
            below: (m[4] == 1).then_some(m[5] as usize),
            edge_type: m[6],
            transition: m[7],
            in_out: m[8] == 1,
            other_in_out: m[9] == 1,
            contour: (m[10] == 1).then_some(m[11]),
        }
    }

    pub fn records(&self) -> impl Iterator<Item = Record> + '_ {
        (0..self.points.len()).map(|i| self.record(i))
    }
}

#[derive(Clone)]
pub struct Swept {
    /// The records in use, and those taken in their order.
    pub pool: Pool,
    pub taken: Vec<u32>,
    pub divisions: usize,
    pub used: usize,
    pub tied: bool,
    pub refused: Option<Refused>,
}

#[derive(Clone)]
pub struct Connected {
    /// What is left of the pool's marks.
    pub marks: Vec<[u32; 12]>,
    pub corners: Vec<[f64; 2]>,
    pub contours: Vec<[u32; 6]>,
    pub holes: Vec<u32>,
    pub unclosed: usize,
    pub refused: Option<Refused>,
}

impl Bridge {
    /// Over the command that runs it.
    pub fn over(command: &[String]) -> Bridge {
        let mut process = Command::new(&command[0])
            .args(&command[1..])
            .stdin(Stdio::piped())
            .stdout(Stdio::piped())
            .spawn()
            .expect("the bridge starts");
        let to = BufWriter::new(process.stdin.take().expect("it has an input"));
        let from = BufReader::new(process.stdout.take().expect("it has an output"));
        Bridge { process, to, from }
    }

    pub fn sweep(&mut self, sheet: &[Edge], operation: Operation, mode: u32, size: usize) -> Swept {
        self.put(&[1, sheet.len() as u32, operation_number(operation), mode, size as u32]);
        for e in sheet {
            self.put_numbers(&[e.from[0], e.from[1], e.to[0], e.to[1]]);
        }
        for e in sheet {
            self.put(&[e.ring, e.subject as u32]);
        }
        self.to.flush().expect("the bridge listens");
        let [load, number, place]: [u64; 3] = self.words();
        assert_eq!(load, 0, "every sheet loads");
        let [taken, divisions, used, tied]: [u32; 4] = self.marks();
        let points = (0..used).map(|_| self.numbers()).collect();
        let marks = (0..used).map(|_| self.marks()).collect();
        let taken = (0..taken).map(|_| self.marks::<1>()[0]).collect();
        Swept {
            pool: Pool { points, marks },
            taken,
            divisions: divisions as usize,
            used: used as usize,
            tied: tied == 1,
            refused: (number != 0).then_some((number, place)),
        }
    }

    /// With just as much room as refusal 5 asks for, or more.
    pub fn connect(&mut self, pool: &Pool, list: &[u32], room: [usize; 3]) -> Connected {
        let [corners, contours, holes] = room.map(|n| n as u32);
        self.put(&[2, pool.points.len() as u32, list.len() as u32, corners, contours, holes]);
        pool.points.iter().for_each(|p| self.put_numbers(p));
        pool.marks.iter().for_each(|m| self.put(m));
        self.put(list);
        self.to.flush().expect("the bridge listens");
        let [number, place]: [u64; 2] = self.words();
        let [contours, corners, holes, unclosed]: [u32; 4] = self.marks();
        Connected {
            marks: pool.marks.iter().map(|_| self.marks()).collect(),
            corners: (0..corners).map(|_| self.numbers()).collect(),
            contours: (0..contours).map(|_| self.marks()).collect(),
            holes: (0..holes).map(|_| self.marks::<1>()[0]).collect(),
            unclosed: unclosed as usize,
            refused: (number != 0).then_some((number, place)),
        }
    }

    /// The text that a sheet gives in so many bytes.
    pub fn overlay(&mut self, sheet: &[u8], room: u32) -> Result<String, Refused> {
        self.put(&[3, sheet.len() as u32, room]);
        self.to.write_all(sheet).expect("the bridge listens");
        self.to.flush().expect("the bridge listens");
        let [number, place, length]: [u64; 3] = self.words();
        let mut text = vec![0; length as usize];
        self.from.read_exact(&mut text).expect("the bridge answers");
        if number == 0 { Ok(String::from_utf8(text).expect("it is plain text")) } else { Err((number, place)) }
    }

    fn put(&mut self, marks: &[u32]) {
        marks.iter().for_each(|m| self.to.write_all(&m.to_le_bytes()).expect("the bridge listens"));
    }

    fn put_numbers(&mut self, numbers: &[f64]) {
        numbers.iter().for_each(|x| self.to.write_all(&x.to_le_bytes()).expect("the bridge listens"));
    }

    fn bytes<const N: usize>(&mut self) -> [u8; N] {
        let mut bytes = [0; N];
        self.from.read_exact(&mut bytes).expect("the bridge answers");
        bytes
    }

    fn words<const N: usize>(&mut self) -> [u64; N] {
        [(); N].map(|_| u64::from_le_bytes(self.bytes()))
    }

    fn marks<const N: usize>(&mut self) -> [u32; N] {
        [(); N].map(|_| u32::from_le_bytes(self.bytes()))
    }

    fn numbers<const N: usize>(&mut self) -> [f64; N] {
        [(); N].map(|_| f64::from_le_bytes(self.bytes()))
    }
}

impl Drop for Bridge {
    fn drop(&mut self) {
        let _ = self.process.kill();
        let _ = self.process.wait();
    }
}

fn operation_number(operation: Operation) -> u32 {
    match operation {
        Operation::Intersection => 0,
        Operation::Difference => 1,
        Operation::Union => 2,
        Operation::Xor => 3,
    }
}
