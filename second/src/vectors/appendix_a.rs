//! The example messages of RFC 6396's Appendix A, octets from the late draft.

use super::shapes::{plain_table, Route};
use super::sketch::Sketch;
use super::{shapes, Suite};

/// Draft figure 16: the BGP UPDATE inside the BGP4MP_MESSAGE_AS4 example.
const UPDATE: [u8; 62] = [
    0xff, 0xff, 0xff, 0xff, 0xff, 0xff, 0xff, 0xff, 0xff, 0xff, 0xff, 0xff, 0xff, 0xff, 0xff, 0xff,
    0x00, 0x3e, 0x02, 0x00, 0x00, 0x00, 0x1f, 0x40, 0x01, 0x01, 0x02, 0x40, 0x02, 0x0e, 0x02, 0x03,
    0x00, 0x00, 0xfb, 0xf0, 0x00, 0x00, 0xfb, 0xff, 0x00, 0x00, 0xfb, 0xf6, 0x40, 0x03, 0x04, 0xc6,
    0x33, 0x64, 0x55, 0xc0, 0x08, 0x04, 0xfb, 0xf0, 0x00, 0x0e, 0x18, 0xcb, 0x00, 0x71,
];

/// Draft figure 19: the path attributes of the RIB_IPV6_UNICAST example.
const RIB_ATTRIBUTES: [u8; 68] = [
    0x40, 0x01, 0x01, 0x00, 0x50, 0x02, 0x00, 0x0e, 0x02, 0x03, 0x00, 0x00, 0xfb, 0xf0, 0x00, 0x00,
    0xfb, 0xff, 0x00, 0x00, 0xfb, 0xf6, 0x80, 0x0e, 0x2b, 0x00, 0x02, 0x01, 0x20, 0x20, 0x01, 0x0d,
    0xb8, 0x00, 0x0d, 0x00, 0xff, 0x00, 0x00, 0x00, 0x00, 0x00, 0x00, 0x01, 0x87, 0xfe, 0x80, 0x00,
    0x00, 0x00, 0x00, 0x00, 0x00, 0x02, 0x12, 0xf2, 0xff, 0xfe, 0x9f, 0x1b, 0x00, 0x00, 0x00, 0x20,
    0x20, 0x01, 0x0d, 0xb8,
];

/// All three examples carry this time.
const TIME: u32 = 1_300_475_700;

/// Figure 16, Length 82.
fn message() -> Sketch {
    Sketch::new(16, 4)
        .at(TIME)
        .n("peer-as", 4, 64_496)
        .n("local-as", 4, 64_497)
        .n("interface", 2, 0)
        .n("family", 2, 1)
        .raw("peer-address", &[192, 0, 2, 85])
        .raw("local-address", &[198, 51, 100, 4])
        .raw("update", &UPDATE)
}

/// Figure 18, Length 34.
fn table() -> Sketch {
    Sketch::new(13, 1)
        .at(TIME)
        .raw("collector", &[198, 51, 100, 4])
        .n("name-length", 2, 0)
        .n("peer-count", 2, 2)
        .n("peer0-type", 1, 2)
        .raw("peer0-id", &[198, 51, 100, 5])
        .raw("peer0-address", &[198, 51, 100, 5])
        .n("peer0-as", 4, 65_541)
        .n("peer1-type", 1, 2)
        .raw("peer1-id", &[192, 0, 2, 33])
        .raw("peer1-address", &[192, 0, 2, 33])
        .n("peer1-as", 4, 65_542)
}

/// Figure 19, Length 87. Its entry names peer 15 of a table not shown.
fn rib() -> Sketch {
    shapes::rib(4, 32, &[0x20, 0x01, 0x0d, 0xb8], &[Route(15, &RIB_ATTRIBUTES)])
        .at(TIME)
        .set_n("entry0-originated", TIME.into())
}

pub fn add(suite: &mut Suite) {
    let sixteen = plain_table(16).record();
    let fifteen = plain_table(15).record();
    suite.good("appendix-a-1-message-as4", &[message().record()]);
    suite.good("appendix-a-2-peer-table", &[table().record()]);
    suite.bad("appendix-a-3-rib-alone", &[], rib().wrong_subtype(12));
    let stranger = rib().wrong(13, "entry0-index");
    suite.bad("appendix-a-3-rib-after-its-2-peers", &[table().record()], stranger.clone());
    suite.bad("appendix-a-3-rib-after-15-peers", &[fifteen], stranger);
    suite.good("appendix-a-3-rib-after-16-peers", &[sixteen.clone(), rib().record()]);
    suite.good("appendix-a-all", &[message().record(), table().record(), sixteen, rib().record()]);
}
