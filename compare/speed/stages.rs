//! The archives' entries for whole runs, over arrays that are made once.
use inputs::sheets::Edge;

#[link(name = "stages", kind = "static")]
#[link(name = "overlay_entry", kind = "static")]
extern "C" {
    fn bezorika_load(
        ends: *const [f64; 4],
        ends_length: usize,
        labels: *const [u32; 2],
        labels_length: usize,
        points: *mut [f64; 2],
        points_length: usize,
        marks: *mut [u32; 12],
        marks_length: usize,
        used: &mut u32,
        place: &mut u64,
    ) -> u64;
    fn bezorika_subdivide(
        points: *mut [f64; 2],
        points_length: usize,
        marks: *mut [u32; 12],
        marks_length: usize,
        loaded: u32,
        operation: u32,
        mode: u32,
        taken: *mut u32,
        taken_length: usize,
        counts: &mut [u32; 4],
        place: &mut u64,
    ) -> u64;
    fn bezorika_connect(
        points: *const [f64; 2],
        points_length: usize,
        marks: *mut [u32; 12],
        marks_length: usize,
        list: *const u32,
        list_length: usize,
        corners: *mut [f64; 2],
        corners_length: usize,
        contours: *mut [u32; 6],
        contours_length: usize,
        holes: *mut u32,
        holes_length: usize,
        counts: &mut [u32; 4],
        place: &mut u64,
    ) -> u64;
    fn bezorika_overlay(
        bytes: *const u8,
        bytes_length: usize,
        out: *mut u8,
        out_length: usize,
        length: &mut u64,
        place: &mut u64,
    ) -> u64;
    fn bezorika_overlay_arranged(
        bytes: *const u8,
        bytes_length: usize,
        out: *mut u8,
        out_length: usize,
        length: &mut u64,
        place: &mut u64,
    ) -> u64;
    fn bezorika_arrange(bytes: *mut u8, bytes_length: usize, place: &mut u64) -> u64;
}

const UNION: u32 = 2;
/// As `overlay` works its sheets.
const ORDERED: u32 = 1;

/// What the three stages are lent, and what they left.
pub struct Stages {
    ends: Vec<[f64; 4]>,
    labels: Vec<[u32; 2]>,
    points: Vec<[f64; 2]>,
    marks: Vec<[u32; 12]>,
    taken: Vec<u32>,
    corners: Vec<[f64; 2]>,
    contours: Vec<[u32; 6]>,
    holes: Vec<u32>,
    swept: [u32; 4],
    connected: [u32; 4],
}

impl Stages {
    pub fn of(sheet: &[Edge], size: usize) -> Stages {
        Stages {
            ends: sheet.iter().map(|e| [e.from[0], e.from[1], e.to[0], e.to[1]]).collect(),
            labels: sheet.iter().map(|e| [e.ring, e.subject as u32]).collect(),
            points: vec![[0.0; 2]; size],
            marks: vec![[0; 12]; size],
            taken: vec![0; size],
            corners: vec![[0.0; 2]; size],
            contours: vec![[0; 6]; size],
            holes: vec![0; size],
            swept: [0; 4],
            connected: [0; 4],
        }
    }

    /// All arrays as they were before the first call.
    pub fn restore(&mut self) {
        self.points.fill([0.0; 2]);
        self.marks.fill([0; 12]);
        self.taken.fill(0);
        self.corners.fill([0.0; 2]);
        self.contours.fill([0; 6]);
        self.holes.fill(0);
    }

    pub fn run(&mut self) {
        self.sweep();
        self.connect();
    }

    /// Loading, then the sweep.
    pub fn sweep(&mut self) {
        let (mut used, mut place) = (0, 0);
        let (points, marks) = (self.points.as_mut_ptr(), self.marks.as_mut_ptr());
        let (size, edges) = (self.points.len(), self.ends.len());
        // SAFETY: each length is that of its own array.
        let code = unsafe {
            bezorika_load(
                self.ends.as_ptr(), edges, self.labels.as_ptr(), edges, points, size, marks, size, &mut used, &mut place,
            )
        };
        answered(code, place);
        // SAFETY: as above.
        let code = unsafe {
            bezorika_subdivide(
                points, size, marks, size, used, UNION, ORDERED, self.taken.as_mut_ptr(), size, &mut self.swept,
                &mut place,
            )
        };
        answered(code, place);
    }

    pub fn connect(&mut self) {
        let (size, mut place) = (self.points.len(), 0);
        // SAFETY: each length is that of its own array, and the list is no longer than its array.
        let code = unsafe {
            bezorika_connect(
                self.points.as_ptr(), size, self.marks.as_mut_ptr(), size, self.taken.as_ptr(), self.swept[0] as usize,
                self.corners.as_mut_ptr(), size, self.contours.as_mut_ptr(), size, self.holes.as_mut_ptr(), size,
                &mut self.connected, &mut place,
            )
        };
        answered(code, place);
    }

    pub fn divisions(&self) -> usize {
        self.swept[1] as usize
    }

    /// The most segments that were open at once: a left event opens one, a right event ends one.
    pub fn largest_status(&self) -> i64 {
        let (mut open, mut most) = (0, 0);
        for &r in &self.taken[..self.swept[0] as usize] {
            open += if self.marks[r as usize][0] == 1 { 1 } else { -1 };
            most = most.max(open);
        }
        most
    }

    fn contours(&self) -> impl Iterator<Item = (&[u32; 6], &[[f64; 2]])> {
        let contours = &self.contours[..self.connected[0] as usize];
        contours.iter().map(|c| (c, &self.corners[c[0] as usize..c[1] as usize]))
    }

    /// The corners of each contour, in their order.
    pub fn corners(&self) -> Vec<Vec<[f64; 2]>> {
        self.contours().map(|(_, corners)| corners.to_vec()).collect()
    }

    /// What lies in an outline and in none of its holes.
    pub fn area(&self) -> f64 {
        self.contours().map(|(c, corners)| if c[2] == 0 { area_of(corners) } else { -area_of(corners) }).sum()
    }
}

fn area_of(corners: &[[f64; 2]]) -> f64 {
    let twice: f64 = corners.windows(2).map(|w| w[0][0] * w[1][1] - w[0][1] * w[1][0]).sum();
    twice.abs() / 2.0
}

/// An entry that takes a sheet's bytes to its map's.
type Entry = unsafe extern "C" fn(*const u8, usize, *mut u8, usize, &mut u64, &mut u64) -> u64;

fn laid_over(entry: Entry, bytes: &[u8], out: &mut [u8]) -> u64 {
    let (mut length, mut place) = (0, 0);
    // SAFETY: each length is that of its own array.
    let code = unsafe { entry(bytes.as_ptr(), bytes.len(), out.as_mut_ptr(), out.len(), &mut length, &mut place) };
    answered(code, place);
    length
}

/// A sheet's bytes to its map's bytes; how many there are.
pub fn overlay(bytes: &[u8], out: &mut [u8]) -> u64 {
    laid_over(bezorika_overlay, bytes, out)
}

/// The same of the sheet put in order.
pub fn overlay_arranged(bytes: &[u8], out: &mut [u8]) -> u64 {
    laid_over(bezorika_overlay_arranged, bytes, out)
}

/// A sheet put in order, in its own bytes.
pub fn arrange(bytes: &mut [u8]) {
    let mut place = 0;
    // SAFETY: the length is that of the array.
    let code = unsafe { bezorika_arrange(bytes.as_mut_ptr(), bytes.len(), &mut place) };
    answered(code, place);
}

/// A plan that is refused says nothing about speed.
fn answered(code: u64, place: u64) {
    assert_eq!(code, 0, "refused at {place}");
}
