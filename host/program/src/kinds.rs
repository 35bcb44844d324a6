//! Types and Subtypes in words: also those that are not read, so that a fault can name them.

/// The name that RFC 6396 gives a Type.
pub fn of_type(type_code: u16) -> Option<&'static str> {
    Some(match type_code {
        11 => "OSPFv2",
        12 => "TABLE_DUMP",
        13 => "TABLE_DUMP_V2",
        16 => "BGP4MP",
        17 => "BGP4MP_ET",
        32 => "ISIS",
        33 => "ISIS_ET",
        48 => "OSPFv3",
        49 => "OSPFv3_ET",
        0..=10 => "a deprecated Type",
        _ => return None,
    })
}

/// What a Type's Subtype is. 2-octet and 4-octet AS numbers make no difference here.
pub fn of_subtype(type_code: u16, subtype: u16) -> Option<&'static str> {
    Some(match (type_code, subtype) {
        (12, 1) => "IPv4 route",
        (12, 2) => "IPv6 route",
        (13, 1) => "peer table",
        (13, 2) => "RIB IPv4 unicast",
        (13, 3) => "RIB IPv4 multicast",
        (13, 4) => "RIB IPv6 unicast",
        (13, 5) => "RIB IPv6 multicast",
        (13, 6) => "RIB generic",
        (13, 7) => "peer locations",
        (13, 8..=12) => "RIB with add-path",
        (16 | 17, 0 | 5) => "state change",
        (16 | 17, 1 | 4) => "message",
        (16 | 17, 2) => "table entry",
        (16 | 17, 3) => "snapshot",
        (16 | 17, 6 | 7) => "message sent",
        (16 | 17, 8 | 9) => "message with add-path",
        (16 | 17, 10 | 11) => "message sent with add-path",
        _ => return None,
    })
}

/// Both, as far as they have names.
pub fn of_record(type_code: u16, subtype: u16) -> String {
    match (of_type(type_code), of_subtype(type_code, subtype)) {
        (None, _) => "a Type that is not known".to_string(),
        (Some(name), None) => name.to_string(),
        (Some(name), Some(what)) => format!("{name}, {what}"),
    }
}

/// The states of a session.
pub fn of_state(state: u16) -> &'static str {
    match state {
        1 => "Idle",
        2 => "Connect",
        3 => "Active",
        4 => "OpenSent",
        5 => "OpenConfirm",
        6 => "Established",
        _ => "no state",
    }
}

/// The types of BGP messages (RFC 4271, and RFC 2918 for the last).
pub fn of_message(type_octet: u8) -> String {
    match type_octet {
        1 => "OPEN".to_string(),
        2 => "UPDATE".to_string(),
        3 => "NOTIFICATION".to_string(),
        4 => "KEEPALIVE".to_string(),
        5 => "ROUTE-REFRESH".to_string(),
        other => format!("other {other}"),
    }
}

#[cfg(test)]
mod tests {
    use super::*;

    #[test]
    fn types_with_their_subtypes() {
        assert_eq!(of_record(16, 0), "BGP4MP, state change");
        assert_eq!(of_record(17, 9), "BGP4MP_ET, message with add-path");
        assert_eq!(of_record(13, 99), "TABLE_DUMP_V2");
        assert_eq!(of_record(48, 1), "OSPFv3");
        assert_eq!(of_record(5, 1), "a deprecated Type");
        assert_eq!(of_record(0x7468, 0), "a Type that is not known");
    }
}
