//! A second reader, writer, cutter and counter of MRT dumps, made to be compared with
//! another one. Records are plain values: they are read from a [`reader::Reader`],
//! can be looked at, changed or filtered, and are put back by a
//! [`writer::Writer`].

pub mod attributes;
pub mod bgp4mp;
pub mod cut;
pub mod cut_cases;
pub mod dump;
pub mod fault;
mod files;
pub mod layout;
pub mod listing;
pub mod net;
pub mod peer_table;
pub mod reader;
pub mod record;
pub mod report;
pub mod report_cases;
pub mod rib;
pub mod sample;
pub mod table_dump;
pub mod text;
pub mod vectors;
pub mod write_cases;
pub mod writer;
pub mod writers;
