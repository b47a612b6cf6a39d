//! Classifiers with every kind of port part and address part, and frames that fit or miss each of them,
//! judged by the library and by the other program (document 02, Req 03). `bench` judges each frame by the
//! table and by the prepared tunnel.
//!
//! What fits is written out by hand beside each part, from document 01, "Choosing and judging".

use reference::protocol::request::Request;
use reference::protocol::Session;
use reference::table::{Classifier, Client, Rule, Table};
use requests::programs::ask;

const TUNNEL: [u8; 6] = [1, 0, 0x5E, 5, 5, 5];
const CLIENT: Client = Client::Application(42);
/// The classifier that is tried, beside others of greater numbers and priority.
const TRIED: u16 = 1;

const DESTINATION: [u8; 4] = [224, 0, 0, 9];
const OTHER_DESTINATION: [u8; 4] = [224, 0, 0, 8];
/// A destination and a source that no frame has.
const ELSEWHERE: [u8; 4] = [225, 0, 0, 9];
const SOURCES: [[u8; 4]; 4] = [[10, 1, 2, 3], [10, 1, 2, 4], [10, 1, 3, 3], [0, 0, 0, 0]];
const MASK: [u8; 4] = [255, 255, 255, 0];
/// A start and an end, a port inside, those beside each, and the ends of all ports.
const PORTS: [u16; 9] = [0, 999, 1_000, 1_499, 1_500, 1_501, 2_000, 2_001, 65_535];
const INSIDE: u16 = 1_500;
/// A range in which no frame has its port.
const UNUSED: [Option<u16>; 2] = [Some(3_000), Some(4_000)];

/// Start and end, and the ports that fit; none if a frame needs no port.
type PortPart = ([Option<u16>; 2], Option<&'static [u16]>);
const PORT_PARTS: [PortPart; 7] = [
    ([None, None], None),
    (
        [Some(1_000), Some(2_000)],
        Some(&[1_000, 1_499, 1_500, 1_501, 2_000]),
    ),
    (
        [Some(1_000), None],
        Some(&[1_000, 1_499, 1_500, 1_501, 2_000, 2_001, 65_535]),
    ),
    (
        [None, Some(2_000)],
        Some(&[0, 999, 1_000, 1_499, 1_500, 1_501, 2_000]),
    ),
    ([Some(INSIDE), Some(INSIDE)], Some(&[INSIDE])),
    ([Some(2_000), Some(1_000)], Some(&[])),
    ([Some(0), Some(65_535)], Some(&PORTS)),
];

/// Source and mask, and the sources that fit.
type AddressPart = ([Option<[u8; 4]>; 2], &'static [[u8; 4]]);
const ADDRESS_PARTS: [AddressPart; 6] = [
    ([None, None], &SOURCES),
    (
        [Some([10, 1, 2, 0]), Some(MASK)],
        &[[10, 1, 2, 3], [10, 1, 2, 4]],
    ),
    ([Some([10, 1, 2, 3]), None], &[[10, 1, 2, 3]]),
    ([Some([0; 4]), Some([0; 4])], &SOURCES),
    ([Some([10, 1, 2, 3]), Some(MASK)], &[]),
    ([None, Some(MASK)], &SOURCES),
];

/// Where the classifier that is tried stands in the table and in the rule's list.
#[derive(Clone, Copy)]
enum Place {
    Alone,
    FirstOfEight,
    LastOfEight,
}
const PLACES: [Place; 3] = [Place::Alone, Place::FirstOfEight, Place::LastOfEight];

fn classifier(
    number: u16,
    destination: [u8; 4],
    [source, mask]: [Option<[u8; 4]>; 2],
    [start, end]: [Option<u16>; 2],
) -> Classifier {
    Classifier {
        number,
        priority: if number == TRIED { 1 } else { 2 },
        source,
        mask,
        destination,
        port_start: start,
        port_end: end,
    }
}

/// Seven classifiers that every frame misses: on the port, on an address and on both.
fn others() -> Vec<Classifier> {
    let (free, elsewhere) = ([None, None], [Some(ELSEWHERE), None]);
    let parts = [
        (DESTINATION, free, UNUSED),
        (DESTINATION, free, [UNUSED[1], UNUSED[0]]),
        (ELSEWHERE, free, [None, None]),
        (DESTINATION, elsewhere, [None, None]),
        (ELSEWHERE, free, UNUSED),
        (DESTINATION, elsewhere, UNUSED),
        (ELSEWHERE, elsewhere, UNUSED),
    ];
    let numbered = (TRIED + 1..).zip(parts);
    let others = numbered.map(|(number, (to, from, ports))| classifier(number, to, from, ports));
    others.collect()
}

/// One rule, which names all classifiers in the order in which they stand.
fn table(tried: Classifier, place: Place) -> Table {
    let mut classifiers = match place {
        Place::Alone => vec![],
        _ => others(),
    };
    let at = match place {
        Place::LastOfEight => classifiers.len(),
        _ => 0,
    };
    classifiers.insert(at, tried);
    Table {
        rules: vec![Rule {
            number: 5,
            priority: 1,
            tunnel: TUNNEL,
            ucids: vec![],
            clients: vec![CLIENT],
            classifiers: classifiers.iter().map(|c| c.number).collect(),
        }],
        classifiers,
        ..Table::default()
    }
}

/// What stands in a frame beside its addresses.
#[derive(Clone, Copy)]
struct Packet {
    /// Of the header.
    words: u8,
    /// Flags and fragment offset.
    fragment: [u8; 2],
    protocol: u8,
    /// What stands in the place of the destination port.
    port: u16,
    /// The bytes behind the header.
    behind: usize,
}

/// Packets with each port, by UDP and as the first of several fragments by TCP, and packets without one:
/// by the protocol, by the fragment offset, and by the frame's end.
fn packets(words: u8) -> Vec<(Packet, Option<u16>)> {
    let udp = Packet {
        words,
        fragment: [0x00, 0x00],
        protocol: 17,
        port: INSIDE,
        behind: 8,
    };
    let tcp = Packet {
        fragment: [0x20, 0x00],
        protocol: 6,
        behind: 4,
        ..udp
    };
    let with_port = PORTS
        .into_iter()
        .flat_map(|port| [udp, tcp].map(|packet| (Packet { port, ..packet }, Some(port))));
    let fragment = [0x00, 0x01];
    let without = [
        Packet { protocol: 1, ..udp },
        Packet { fragment, ..udp },
        Packet { behind: 3, ..udp },
        Packet { behind: 0, ..udp },
    ];
    let without = without.map(|packet| (packet, None));
    with_port.chain(without).collect()
}

fn frame(destination: [u8; 4], source: [u8; 4], packet: Packet) -> Vec<u8> {
    let end = 14 + 4 * usize::from(packet.words);
    let mut frame = vec![0xFF; end + 8];
    frame[..6].copy_from_slice(&TUNNEL);
    frame[12..15].copy_from_slice(&[0x08, 0x00, 0x40 | packet.words]);
    frame[20..22].copy_from_slice(&packet.fragment);
    frame[23] = packet.protocol;
    frame[26..30].copy_from_slice(&source);
    frame[30..34].copy_from_slice(&destination);
    frame[end + 2..end + 4].copy_from_slice(&packet.port.to_be_bytes());
    frame.truncate(end + packet.behind);
    frame
}

/// Every frame, and whether it fits a classifier of these parts and of `DESTINATION`.
fn frames(ports: Option<&[u16]>, sources: &[[u8; 4]]) -> Vec<(Vec<u8>, bool)> {
    let mut frames = Vec::new();
    for (packet, port) in [5, 7].into_iter().flat_map(packets) {
        let port_fits = ports.is_none_or(|ports| port.is_some_and(|port| ports.contains(&port)));
        for source in SOURCES {
            let fits = port_fits && sources.contains(&source);
            frames.push((frame(DESTINATION, source, packet), fits));
            frames.push((frame(OTHER_DESTINATION, source, packet), false));
        }
    }
    frames
}

/// Every request, with the answer that the document gives.
fn sweep() -> Vec<(Request, String)> {
    let mut sweep = Vec::new();
    for (ports, fitting_ports) in PORT_PARTS {
        for (addresses, fitting_sources) in ADDRESS_PARTS {
            for place in PLACES {
                let tried = classifier(TRIED, DESTINATION, addresses, ports);
                sweep.push((Request::TSet(table(tried, place)), "ok".to_string()));
                let frames = frames(fitting_ports, fitting_sources);
                sweep.extend(frames.into_iter().map(judged));
            }
        }
    }
    sweep
}

fn judged((frame, fits): (Vec<u8>, bool)) -> (Request, String) {
    let payload = frame[14..].iter().map(|byte| format!("{byte:02x}"));
    let answer = if fits {
        format!("forward {TRIED} {}", payload.collect::<String>())
    } else {
        "filtered".to_string()
    };
    (Request::Judge(CLIENT, None, frame), answer)
}

#[test]
fn same_as_other_program_and_document_on_every_port_part_and_address_part() {
    let asked = sweep().into_iter().map(|(request, _)| request);
    let mut answers = ask(env!("CARGO_BIN_EXE_bench"), asked).expect("bench starts");
    let mut session = Session::default();
    let (mut judged, mut forwarded) = (0, 0);
    for (request, said) in sweep() {
        assert_eq!(session.answer(request.clone()), said, "{request}");
        assert_eq!(answers.next().as_ref(), Some(&said), "{request}");
        judged += usize::from(said != "ok");
        forwarded += usize::from(said.starts_with("forward"));
    }
    assert_eq!(answers.next(), None);
    assert!(answers.ended_well());
    // Of 7 port parts and 22 packets, 6 address parts, 4 sources and 2 destinations, each in two header
    // lengths and three places,
    assert_eq!(judged, 2 * 3 * (7 * 22) * (6 * 4 * 2));
    // fit 22 + 10 + 14 + 14 + 2 + 0 + 18 packets, and 4 + 2 + 1 + 4 + 0 + 4 sources with one destination.
    assert_eq!(forwarded, 2 * 3 * 80 * 15);
}
