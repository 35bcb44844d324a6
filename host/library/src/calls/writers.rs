//! The calls that write a record, with all that they are given: numbers of any size. What makes them
//! sound is said in [`super`].

extern "C" {
    fn dagsumilat_write_unread(
        timestamp: u64,
        has_microseconds: u64,
        microseconds: u64,
        type_code: u64,
        subtype: u64,
        contents: *const u8,
        contents_len: usize,
        out: *mut u8,
        out_len: usize,
        answer: *mut [u64; 2],
    );
    fn dagsumilat_write_table_dump(
        timestamp: u64,
        subtype: u64,
        view: u64,
        sequence: u64,
        prefix: *const u8,
        prefix_len: usize,
        prefix_length: u64,
        status: u64,
        originated: u64,
        peer_address: *const u8,
        peer_address_len: usize,
        peer_as: u64,
        attributes: *const u8,
        attributes_len: usize,
        out: *mut u8,
        out_len: usize,
        answer: *mut [u64; 2],
    );
    fn dagsumilat_write_peer_table(
        timestamp: u64,
        collector_id: u64,
        name: *const u8,
        name_len: usize,
        count: u64,
        peers: *const u8,
        peers_len: usize,
        out: *mut u8,
        out_len: usize,
        answer: *mut [u64; 2],
    );
    fn dagsumilat_write_rib(
        timestamp: u64,
        subtype: u64,
        table: u64,
        sequence: u64,
        prefix_length: u64,
        prefix: *const u8,
        prefix_len: usize,
        count: u64,
        entries: *const u8,
        entries_len: usize,
        out: *mut u8,
        out_len: usize,
        answer: *mut [u64; 2],
    );
    fn dagsumilat_write_rib_generic(
        timestamp: u64,
        table: u64,
        sequence: u64,
        family: u64,
        safi: u64,
        prefix_length: u64,
        prefix: *const u8,
        prefix_len: usize,
        count: u64,
        entries: *const u8,
        entries_len: usize,
        out: *mut u8,
        out_len: usize,
        answer: *mut [u64; 2],
    );
    fn dagsumilat_write_change(
        timestamp: u64,
        has_microseconds: u64,
        microseconds: u64,
        subtype: u64,
        peer_as: u64,
        local_as: u64,
        interface: u64,
        family: u64,
        peer_address: *const u8,
        peer_address_len: usize,
        local_address: *const u8,
        local_address_len: usize,
        old_state: u64,
        new_state: u64,
        out: *mut u8,
        out_len: usize,
        answer: *mut [u64; 2],
    );
    fn dagsumilat_write_message(
        timestamp: u64,
        has_microseconds: u64,
        microseconds: u64,
        subtype: u64,
        peer_as: u64,
        local_as: u64,
        interface: u64,
        family: u64,
        peer_address: *const u8,
        peer_address_len: usize,
        local_address: *const u8,
        local_address_len: usize,
        message: *const u8,
        message_len: usize,
        out: *mut u8,
        out_len: usize,
        answer: *mut [u64; 2],
    );
}

/// Whether there are microseconds: 0 or any other number.
#[derive(Clone, Copy, Debug, PartialEq, Eq)]
pub struct Time {
    pub timestamp: u64,
    pub has_microseconds: u64,
    pub microseconds: u64,
}

/// What state changes and messages begin with.
#[derive(Clone, Copy, Debug, PartialEq, Eq)]
pub struct Session<'a> {
    pub peer_as: u64,
    pub local_as: u64,
    pub interface: u64,
    pub family: u64,
    pub peer_address: &'a [u8],
    pub local_address: &'a [u8],
}

/// Types 11, 32, 48, and 33 and 49.
#[derive(Clone, Copy, Debug, PartialEq, Eq)]
pub struct Unread<'a> {
    pub time: Time,
    pub type_code: u64,
    pub subtype: u64,
    pub contents: &'a [u8],
}

impl Unread<'_> {
    pub fn write(&self, out: &mut [u8], answer: &mut [u64; 2]) {
        // SAFETY: see the top of the file above.
        unsafe {
            dagsumilat_write_unread(
                self.time.timestamp,
                self.time.has_microseconds,
                self.time.microseconds,
                self.type_code,
                self.subtype,
                self.contents.as_ptr(),
                self.contents.len(),
                out.as_mut_ptr(),
                out.len(),
                answer,
            )
        }
    }
}

/// Type 12.
#[derive(Clone, Copy, Debug, PartialEq, Eq)]
pub struct TableDump<'a> {
    pub timestamp: u64,
    pub subtype: u64,
    pub view: u64,
    pub sequence: u64,
    pub prefix: &'a [u8],
    pub prefix_length: u64,
    pub status: u64,
    pub originated: u64,
    pub peer_address: &'a [u8],
    pub peer_as: u64,
    pub attributes: &'a [u8],
}

impl TableDump<'_> {
    pub fn write(&self, out: &mut [u8], answer: &mut [u64; 2]) {
        // SAFETY: see the top of the file above.
        unsafe {
            dagsumilat_write_table_dump(
                self.timestamp,
                self.subtype,
                self.view,
                self.sequence,
                self.prefix.as_ptr(),
                self.prefix.len(),
                self.prefix_length,
                self.status,
                self.originated,
                self.peer_address.as_ptr(),
                self.peer_address.len(),
                self.peer_as,
                self.attributes.as_ptr(),
                self.attributes.len(),
                out.as_mut_ptr(),
                out.len(),
                answer,
            )
        }
    }
}

/// Type 13, subtype 1.
#[derive(Clone, Copy, Debug, PartialEq, Eq)]
pub struct PeerTable<'a> {
    pub timestamp: u64,
    pub collector_id: u64,
    pub name: &'a [u8],
    pub count: u64,
    pub peers: &'a [u8],
}

impl PeerTable<'_> {
    pub fn write(&self, out: &mut [u8], answer: &mut [u64; 2]) {
        // SAFETY: see the top of the file above.
        unsafe {
            dagsumilat_write_peer_table(
                self.timestamp,
                self.collector_id,
                self.name.as_ptr(),
                self.name.len(),
                self.count,
                self.peers.as_ptr(),
                self.peers.len(),
                out.as_mut_ptr(),
                out.len(),
                answer,
            )
        }
    }
}

/// Type 13, subtypes 2 to 5.
#[derive(Clone, Copy, Debug, PartialEq, Eq)]
pub struct Rib<'a> {
    pub timestamp: u64,
    pub subtype: u64,
    pub table: u64,
    pub sequence: u64,
    pub prefix_length: u64,
    pub prefix: &'a [u8],
    pub count: u64,
    pub entries: &'a [u8],
}

impl Rib<'_> {
    pub fn write(&self, out: &mut [u8], answer: &mut [u64; 2]) {
        // SAFETY: see the top of the file above.
        unsafe {
            dagsumilat_write_rib(
                self.timestamp,
                self.subtype,
                self.table,
                self.sequence,
                self.prefix_length,
                self.prefix.as_ptr(),
                self.prefix.len(),
                self.count,
                self.entries.as_ptr(),
                self.entries.len(),
                out.as_mut_ptr(),
                out.len(),
                answer,
            )
        }
    }
}

/// Type 13, subtype 6.
#[derive(Clone, Copy, Debug, PartialEq, Eq)]
pub struct RibGeneric<'a> {
    pub timestamp: u64,
    pub table: u64,
    pub sequence: u64,
    pub family: u64,
    pub safi: u64,
    pub prefix_length: u64,
    pub prefix: &'a [u8],
    pub count: u64,
    pub entries: &'a [u8],
}

impl RibGeneric<'_> {
    pub fn write(&self, out: &mut [u8], answer: &mut [u64; 2]) {
        // SAFETY: see the top of the file above.
        unsafe {
            dagsumilat_write_rib_generic(
                self.timestamp,
                self.table,
                self.sequence,
                self.family,
                self.safi,
                self.prefix_length,
                self.prefix.as_ptr(),
                self.prefix.len(),
                self.count,
                self.entries.as_ptr(),
                self.entries.len(),
                out.as_mut_ptr(),
                out.len(),
                answer,
            )
        }
    }
}

/// Types 16 and 17, subtypes 0 and 5.
#[derive(Clone, Copy, Debug, PartialEq, Eq)]
pub struct StateChange<'a> {
    pub time: Time,
    pub subtype: u64,
    pub session: Session<'a>,
    pub old_state: u64,
    pub new_state: u64,
}

impl StateChange<'_> {
    pub fn write(&self, out: &mut [u8], answer: &mut [u64; 2]) {
        // SAFETY: see the top of the file above.
        unsafe {
            dagsumilat_write_change(
                self.time.timestamp,
                self.time.has_microseconds,
                self.time.microseconds,
                self.subtype,
                self.session.peer_as,
                self.session.local_as,
                self.session.interface,
                self.session.family,
                self.session.peer_address.as_ptr(),
                self.session.peer_address.len(),
                self.session.local_address.as_ptr(),
                self.session.local_address.len(),
                self.old_state,
                self.new_state,
                out.as_mut_ptr(),
                out.len(),
                answer,
            )
        }
    }
}

/// Types 16 and 17, subtypes 1, 4, 6 and 7.
#[derive(Clone, Copy, Debug, PartialEq, Eq)]
pub struct Message<'a> {
    pub time: Time,
    pub subtype: u64,
    pub session: Session<'a>,
    pub message: &'a [u8],
}

impl Message<'_> {
    pub fn write(&self, out: &mut [u8], answer: &mut [u64; 2]) {
        // SAFETY: see the top of the file above.
        unsafe {
            dagsumilat_write_message(
                self.time.timestamp,
                self.time.has_microseconds,
                self.time.microseconds,
                self.subtype,
                self.session.peer_as,
                self.session.local_as,
                self.session.interface,
                self.session.family,
                self.session.peer_address.as_ptr(),
                self.session.peer_address.len(),
                self.session.local_address.as_ptr(),
                self.session.local_address.len(),
                self.message.as_ptr(),
                self.message.len(),
                out.as_mut_ptr(),
                out.len(),
                answer,
            )
        }
    }
}

/// What any one of the writers is given.
#[derive(Clone, Copy, Debug, PartialEq, Eq)]
pub enum Given<'a> {
    Unread(Unread<'a>),
    TableDump(TableDump<'a>),
    PeerTable(PeerTable<'a>),
    Rib(Rib<'a>),
    RibGeneric(RibGeneric<'a>),
    StateChange(StateChange<'a>),
    Message(Message<'a>),
}

impl Given<'_> {
    pub fn write(&self, out: &mut [u8], answer: &mut [u64; 2]) {
        match self {
            Given::Unread(given) => given.write(out, answer),
            Given::TableDump(given) => given.write(out, answer),
            Given::PeerTable(given) => given.write(out, answer),
            Given::Rib(given) => given.write(out, answer),
            Given::RibGeneric(given) => given.write(out, answer),
            Given::StateChange(given) => given.write(out, answer),
            Given::Message(given) => given.write(out, answer),
        }
    }
}
