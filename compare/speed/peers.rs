//! GEOS and Clipper on the same rings.
use inputs::sheets::Edge;

#[link(name = "peers", kind = "static")]
#[link(name = "geos_c")]
#[link(name = "polyclipping")]
#[link(name = "stdc++")]
extern "C" {
    fn geos_union(corners: *const [f64; 2], starts: *const u32, subject: *const u8, rings: usize) -> f64;
    fn clipper_union(corners: *const [f64; 2], starts: *const u32, subject: *const u8, rings: usize) -> f64;
}

pub struct Rings {
    corners: Vec<[f64; 2]>,
    /// Of each ring, and the end of the last.
    starts: Vec<u32>,
    subject: Vec<u8>,
}

impl Rings {
    /// The edges of a ring stand together, each beginning where its neighbour ends.
    pub fn of(sheet: &[Edge]) -> Rings {
        let mut rings = Rings { corners: vec![], starts: vec![0], subject: vec![] };
        for ring in sheet.chunk_by(|a, b| (a.subject, a.ring) == (b.subject, b.ring)) {
            let forwards = ring[0].to == ring[1].from;
            rings.corners.extend(ring.iter().map(|e| if forwards { e.from } else { e.to }));
            rings.starts.push(rings.corners.len() as u32);
            rings.subject.push(ring[0].subject as u8);
        }
        rings
    }

    /// The area of the union.
    pub fn geos(&self) -> f64 {
        // SAFETY: there is a start for each ring and one more, and each is a place of the corners or their end.
        unsafe { geos_union(self.corners.as_ptr(), self.starts.as_ptr(), self.subject.as_ptr(), self.subject.len()) }
    }

    pub fn clipper(&self) -> f64 {
        // SAFETY: as above.
        unsafe { clipper_union(self.corners.as_ptr(), self.starts.as_ptr(), self.subject.as_ptr(), self.subject.len()) }
    }
}
