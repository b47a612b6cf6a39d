//! A modem record and its events.

use dsg::records::{state, Modem};

fn is_forwarding(m: &Modem) -> bool {
    (state::ONE_WAY..=state::TWO_WAY).contains(&m.state)
}

fn is_sending(m: &Modem) -> bool {
    (state::RANGING..=state::TWO_WAY).contains(&m.state)
}

fn is_listening(m: &Modem) -> bool {
    (state::CHECKING..=state::TWO_WAY).contains(&m.state)
}

/// Whether the record counts as idle: idle itself, or one that breaks the rules.
fn counts_idle(m: &Modem) -> bool {
    const MOST: u32 = 65_535_000;
    let marks = m.receiveon <= 1 && m.retryon <= 1 && m.permission <= 1 && m.hasucid <= 1;
    !(marks
        && (state::SCANNING..=state::RESTING).contains(&m.state)
        && (m.receiveon == 1) == (m.state != state::SCANNING)
        && (m.retryon == 0 || m.state == state::ONE_WAY && m.permission == 1)
        && (m.hasucid == 1) == (m.state == state::TWO_WAY)
        && (!is_sending(m) || m.permission == 1)
        && m.tdsg1 != 0
        && m.tdsg2 != 0
        && (m.receiveon == 0 || m.receive <= MOST)
        && (m.retryon == 0 || m.retry <= MOST))
}

fn load_receive(m: &mut Modem, seconds: u16) {
    m.receiveon = 1;
    m.receive = u32::from(seconds) * 1000;
}

fn enter(m: &mut Modem, state: u8) {
    m.state = state;
    m.hasucid = 0;
    m.ucid = 0;
    m.retryon = 0;
    m.retry = 0;
}

fn to_scanning(m: &mut Modem) {
    enter(m, state::SCANNING);
    m.receiveon = 0;
    m.receive = 0;
}

fn to_resting(m: &mut Modem) {
    enter(m, state::RESTING);
    load_receive(m, m.tdsg4);
}

fn accept(m: &mut Modem, values: [u16; 4]) {
    if !is_listening(m) {
        return;
    }
    m.tdsg1 = if values[0] == 0 { 2 } else { values[0] };
    m.tdsg2 = if values[1] == 0 { 600 } else { values[1] };
    m.tdsg3 = values[2];
    m.tdsg4 = values[3];
    if m.state == state::CHECKING {
        enter(
            m,
            if m.permission == 1 {
                state::RANGING
            } else {
                state::ONE_WAY
            },
        );
    }
    load_receive(m, m.tdsg2);
}

fn tick(m: &mut Modem) {
    if m.receiveon == 1 && m.receive == 0 {
        if m.state == state::RESTING {
            to_scanning(m);
        } else {
            to_resting(m);
        }
    } else if m.retryon == 1 && m.retry == 0 {
        enter(m, state::RANGING);
    }
}

/// The event of a number, 2 to 12 in the order of the table.
fn act(m: &mut Modem, event: u8, values: [u16; 4]) {
    match event {
        2 if m.state == state::SCANNING => {
            enter(m, state::CHECKING);
            load_receive(m, m.tdsg1);
        }
        3 if m.state == state::SCANNING => to_resting(m),
        4 => accept(m, values),
        5 if is_forwarding(m) => load_receive(m, m.tdsg2),
        6 => tick(m),
        7 => {
            m.permission = 1;
            if m.state == state::ONE_WAY {
                enter(m, state::RANGING);
            }
        }
        8 if m.state == state::RANGING => {
            if let Ok(ucid) = u8::try_from(values[0]) {
                enter(m, state::TWO_WAY);
                m.hasucid = 1;
                m.ucid = ucid;
            }
        }
        9 if is_sending(m) => {
            enter(m, state::ONE_WAY);
            m.retryon = 1;
            m.retry = u32::from(m.tdsg3) * 1000;
        }
        10 => {
            m.permission = 0;
            m.retryon = 0;
            m.retry = 0;
            if is_sending(m) {
                enter(m, state::ONE_WAY);
            }
        }
        11 | 12 if is_listening(m) => to_scanning(m),
        _ => {}
    }
}

fn start(m: &mut Modem, clock: u32, permission: bool) {
    *m = Modem {
        last: clock,
        receive: 0,
        retry: 0,
        tdsg1: 2,
        tdsg2: 600,
        tdsg3: 300,
        tdsg4: 1800,
        receiveon: 0,
        retryon: 0,
        state: state::SCANNING,
        permission: u8::from(permission),
        hasucid: 0,
        ucid: 0,
    };
}

/// One event on a lent record: 0, or 18 where the clock went back. The event comes as a C host passes it, by its number
/// and four arguments: the library's function is called with these, so an event that came decoded would be less work.
#[inline(never)]
pub fn on_event(m: &mut Modem, clock: u32, event: u8, a: u16, b: u16, c: u16, d: u16) -> u32 {
    if event == 1 && a < 2 {
        start(m, clock, a == 1);
        return 0;
    }
    if counts_idle(m) {
        return 0;
    }
    let step = clock.wrapping_sub(m.last);
    if step >= 1 << 31 {
        return 18;
    }
    m.last = clock;
    if m.receiveon == 1 {
        m.receive = m.receive.saturating_sub(step);
    }
    if m.retryon == 1 {
        m.retry = m.retry.saturating_sub(step);
    }
    act(m, event, [a, b, c, d]);
    0
}
