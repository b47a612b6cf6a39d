//! Shortening: what is not needed for a difference goes, what is needed stays.

use reference::protocol::request::Request;
use requests::generator::{Area, Generator};
use requests::shortening::shorten;

#[test]
fn keeps_the_one_request_that_matters() {
    let mut requests: Vec<Request> = Generator::new(1, Area::Modem).take(100).collect();
    requests.push(Request::Read(vec![1, 2, 0xAB, 3, 4]));
    let shortened = shorten(requests, |requests| {
        let marked = |request: &Request| matches!(request, Request::Read(m) if m.contains(&0xAB));
        requests.iter().any(marked)
    });
    assert_eq!(shortened, [Request::Read(vec![0xAB])]);
}

#[test]
fn shortens_the_body_of_a_recv() {
    let requests: Vec<Request> = Generator::new(1, Area::Receive).take(200).collect();
    let sought = |request: &Request| matches!(request, Request::Recv(body) if body.len() > 3);
    let shortened = shorten(requests, |requests| requests.iter().any(sought));
    let [Request::Recv(body)] = &shortened[..] else {
        panic!("{shortened:?}");
    };
    assert_eq!(body.len(), 4);
}

#[test]
fn keeps_an_earlier_request_that_is_needed() {
    let lending = Request::TRead(vec![]);
    let mut requests = vec![lending.clone()];
    requests.extend(Generator::new(1, Area::Modem).take(50));
    requests.push(Request::Piece(vec![7; 9]));
    let shortened = shorten(requests, |requests| {
        requests.first() == Some(&lending) && matches!(requests.last(), Some(Request::Piece(_)))
    });
    assert_eq!(shortened, [lending, Request::Piece(vec![])]);
}

#[test]
fn ends_when_nothing_can_go() {
    let requests: Vec<Request> = Generator::new(1, Area::All).take(2_000).collect();
    let mut trials = 0;
    let shortened = shorten(requests.clone(), |_| {
        trials += 1;
        false
    });
    assert_eq!(shortened, requests);
    assert!(trials <= 500);
}
