//! The published source of geo-booleanop 0.3.2, unchanged, as a crate. `GEO_BOOLEANOP` names the
//! folder that holds it. `lib.rs` and `splay/mod.rs` only declare modules and are not published
//! there: this file stands for both, and hands on the functions that the crate keeps private. It is built a
//! second time, over links to the same files and `ordered.rs` in the place of one of them.
#![allow(dead_code, deprecated, unused_imports)]

pub mod boolean {
    include!(concat!(env!("GEO_BOOLEANOP"), "/src/boolean/mod.rs"));

    pub mod leaves {
        pub use super::compare_segments::compare_segments;
        pub use super::compute_fields::compute_fields;
        pub use super::connect_edges::{connect_edges, Contour};
        pub use super::divide_segment::divide_segment;
        pub use super::helper::NextAfter;
        pub use super::possible_intersection::possible_intersection;
        pub use super::segment_intersection::{intersection, LineIntersection};
        pub use super::signed_area::signed_area;
        pub use super::subdivide_segments::subdivide;
        pub use super::sweep_event::{EdgeType, ResultTransition, SweepEvent};
    }
}

pub mod splay {
    mod node {
        include!(concat!(env!("GEO_BOOLEANOP"), "/src/splay/node.rs"));
    }
    pub mod set {
        include!(concat!(env!("GEO_BOOLEANOP"), "/src/splay/set.rs"));
    }
    pub mod tree {
        include!(concat!(env!("GEO_BOOLEANOP"), "/src/splay/tree.rs"));
    }
    pub use self::set::SplaySet;
    pub use self::tree::SplayTree;
}
