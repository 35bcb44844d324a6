//! Every field of a good dump by its name, and where it lies.

use super::layout;
use super::records::Maker;
use second::vectors::rng::Rng;
use std::ops::Range;

macro_rules! fields {
    ($($name:ident)*) => {
        /// A field of a record. What starts with `Route` is of type 12, with `Table` of a peer
        /// table, with `Rib` of type 13's subtypes 2 to 6, and with `Entry` of their entries.
        #[derive(Clone, Copy, Debug, PartialEq, Eq)]
        pub enum Field { $($name),* }

        impl Field {
            pub const COUNT: usize = [$(Field::$name),*].len();
            pub const ALL: [Field; Field::COUNT] = [$(Field::$name),*];
        }
    };
}

// `Behind` has no octets: it is where the last attribute ends.
fields! {
    Timestamp Type Subtype Length Microsecond Unread
    PeerAs LocalAs Interface Family PeerAddress LocalAddress OldState NewState
    BgpMarker BgpLength BgpType BgpContent
    RouteView RouteSequence RoutePrefix RoutePrefixLength RouteStatus RouteOriginated
    RoutePeerAddress RoutePeerAs RouteAttributeLength
    RouteFlags RouteCode RouteSize RouteContent RouteBehind
    TableCollector TableNameLength TableName TablePeerCount
    TablePeerType TablePeerId TablePeerAddress TablePeerAs
    RibSequence RibFamily RibSafi RibPrefixLength RibPrefix RibEntryCount
    EntryIndex EntryOriginated EntryAttributeLength
    EntryFlags EntryCode EntrySize EntryContent EntryBehind
}

/// Good dumps that are made until one has a field. More than enough: one in some fifty has the
/// rarest.
const TRIES: usize = 100_000;

/// A field of a dump.
#[derive(Clone, Debug)]
pub struct Spot {
    pub field: Field,
    pub octets: Range<usize>,
    /// What a size, a count or a form says something about: so many octets, the last of so many
    /// peers or entries, the addresses behind a family. Elsewhere empty.
    pub measured: Range<usize>,
    /// The size fields, before this one, that count its octets and what it measures.
    pub counted_by: Vec<Range<usize>>,
    /// Values at and over the edge of what is good here.
    pub edges: Vec<usize>,
}

/// A good dump and all its fields.
pub struct Mapped {
    pub dump: Vec<u8>,
    pub spots: Vec<Spot>,
}

impl Mapped {
    /// A dump that has this field.
    pub fn with(field: Field, rng: &mut Rng) -> Mapped {
        for _ in 0..TRIES {
            let count = 1 + rng.below(8);
            let dump = Maker::new(rng, 0).records(count);
            let spots = layout::spots(&dump);
            if spots.iter().any(|spot| spot.field == field) {
                return Mapped { dump, spots };
            }
        }
        panic!("a field that good dumps do not have: {field:?}");
    }

    /// One of the places where this field is.
    pub fn pick(&self, field: Field, rng: &mut Rng) -> &Spot {
        let spots: Vec<&Spot> = self.spots.iter().filter(|spot| spot.field == field).collect();
        spots[rng.below(spots.len())]
    }
}
