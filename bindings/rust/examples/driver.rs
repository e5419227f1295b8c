//! A small driver of a three-phase box, as examples/driver.c is, and it prints the same: two zones join, set limits of power and of
//! current by frames that come in scraps, and setpoints, of which one is forgotten and ends; a display polls, and the plan says what
//! will change, and comes true. Last, what a board does that has only a tick counter.
use cekarum::{
    ByDirection, Command, Device, Direction, Directions, Field, Receiver, Refusal, Request, Row, Settings, Ticks, Values,
    REQUEST_MAX, RESPONSE_MAX, ROWS_MAX,
};

const SETTINGS: Settings = Settings {
    directions: Directions::Both,
    accepts_limits: true,
    accepts_setpoints: true,
    minimum: 1_380_000,
    maximum: ByDirection { consumption: Some(43_000_000), production: None },
    failsafe: ByDirection { consumption: 4_200_000, production: 0 },
    failsafe_duration: 7200,
    energy_manager: false,
    phases: 3,
    accepts_current_limits: true,
};

/// What the network would bring.
fn sent(id: u32, command: Command) -> Vec<u8> {
    let mut room = [0; REQUEST_MAX];
    Request { id, command }.write(&mut room).map(<[u8]>::to_vec).unwrap_or_default()
}

/// SetLimit of the consumption, for some seconds.
fn limit(id: u32, limit: i64, duration: u32) -> Vec<u8> {
    let limit = ByDirection { consumption: Field::Number(limit), production: Field::Absent };
    sent(id, Command::SetLimit { limit, duration, cause: 0 })
}

/// SetCurrentLimits of the consumption, in mA by phase, until replaced.
fn currents(id: u32, by_phase: [i64; 3]) -> Vec<u8> {
    let current = by_phase.map(Field::Number);
    sent(id, Command::SetCurrentLimits { direction: Direction::Consumption, current, duration: 0, cause: 0 })
}

/// SetSetpoint of one direction: until replaced, or with its duration left out, so that it ends after 3,600 s.
fn setpoint(id: u32, direction: Direction, value: i64, duration: Option<u32>) -> Vec<u8> {
    let mut setpoint = ByDirection::default();
    setpoint[direction] = Some(value);
    sent(id, Command::SetSetpoint { setpoint, duration, cause: 0 })
}

fn say(what: &str, outcome: Result<(), Refusal>) {
    match outcome {
        Ok(()) => println!("{what}: accepted 0"),
        Err(refusal) => println!("{what}: refused with {}", refusal.number()),
    }
}

/// Applies a frame; a response goes back to the zone even where the frame is refused.
fn apply(device: &mut Device, zone: u64, time: u64, frame: &[u8]) {
    let mut out = [0; RESPONSE_MAX];
    let answer = device.frame(zone, time, frame, &mut out);
    say("frame", answer.outcome);
    print!("response:");
    for byte in answer.response {
        print!(" {byte:02x}");
    }
    println!();
}

/// One connection of a zone.
struct Connection {
    zone: u64,
    receiver: Receiver,
}

impl Connection {
    fn new(zone: u64) -> Connection {
        Connection { zone, receiver: Receiver::new() }
    }

    /// What the network brought, perhaps the end of one frame and the start of the next.
    fn arrived(&mut self, device: &mut Device, time: u64, mut scrap: &[u8]) {
        loop {
            match self.receiver.receive(scrap) {
                Err(refusal) => return say("bytes", Err(refusal)), // the connection is closed, and another begins with a new one
                Ok(got) => {
                    if let Some(frame) = got.frame {
                        apply(device, self.zone, time, frame);
                    }
                    scrap = &scrap[got.taken..];
                }
            }
            if scrap.is_empty() {
                return;
            }
        }
    }

    /// A stream as a socket would hand it over: at most 13 bytes at once.
    fn stream(&mut self, device: &mut Device, time: u64, bytes: &[u8]) {
        for scrap in bytes.chunks(13) {
            self.arrived(device, time, scrap);
        }
    }
}

fn shown(value: Option<u64>) -> String {
    value.map_or("-1".into(), |value| value.to_string())
}

/// What each phase may draw.
fn print_currents(device: &Device) {
    for (name, current) in ["A", "B", "C"].iter().zip(device.ask().current) {
        println!("phase {name}: {} mA", shown(current.consumption));
    }
}

fn print_plan(device: &Device) {
    let mut room = [Row::EMPTY; ROWS_MAX];
    let plan = device.plan(&mut room);
    say("plan", plan.map(|_| ()));
    for row in plan.unwrap_or(&[]) {
        let numbers: Vec<String> = row.numbers().iter().map(i64::to_string).collect();
        println!("{} {}", row.second(), numbers.join(" "));
    }
}

fn both(pair: ByDirection<Option<u64>>) -> String {
    format!("{} {}", shown(pair.consumption), shown(pair.production))
}

fn print_row(row: &Row) {
    let Values { state, limit, setpoint, current } = row.values();
    println!("second {}: state {}", row.second(), state as u64);
    println!("  limits {} mW, setpoints {} mW", both(limit), both(setpoint));
    println!("  phase A {} mA, B {} mA, C {} mA", both(current[0]), both(current[1]), both(current[2]));
}

/// The same rows, made the slow way.
fn print_rows(device: &Device) {
    let mut room = [Row::EMPTY; ROWS_MAX];
    let plan = device.plain_plan(&mut room);
    say("plain plan", plan.map(|_| ()));
    plan.unwrap_or(&[]).iter().for_each(print_row);
}

/// A display that polls. It gives no time, so its own clock may be wrong, and the device is lent to it unchangeable.
fn poll_display(device: &Device) {
    let now = device.ask();
    println!("display: state {}, consumption limit {} mW", now.state as u64, shown(now.limit.consumption));
}

/// However often the display polls, the next command is accepted. A clock that goes back is refused and changes nothing either.
fn poll_and_obey(device: &mut Device, connection: &mut Connection, now: u64) {
    for _ in 0..3 {
        poll_display(device);
    }
    say("clock one second back", device.move_clock(now - 1));
    connection.stream(device, now, &limit(12, 6_900_000, 30));
    poll_display(device);
}

/// A phone app sets a charge target and is deleted: the target ends. The home manager means its own to stand, and says so.
fn set_targets(device: &mut Device, manager: &mut Connection, app: &mut Connection, now: u64) {
    app.stream(device, now, &setpoint(13, Direction::Consumption, 7_400_000, None));
    manager.stream(device, now, &setpoint(14, Direction::Production, 2_000_000, Some(0)));
}

/// Whether an ask shows these values once the clock alone has moved to a second.
fn comes_true(device: &mut Device, second: u64, values: &Values) -> &'static str {
    match device.move_clock(second) {
        Err(_) => "refused",
        Ok(()) if device.ask() == *values => "as planned",
        Ok(()) => "not as planned",
    }
}

/// The plan row by row: the values stay until the second before a row, and are the row's at its second.
fn live_through(device: &mut Device) {
    let mut room = [Row::EMPTY; ROWS_MAX];
    let mut values = device.ask();
    for row in device.plan(&mut room).unwrap_or(&[]) {
        let second = row.second();
        println!("second {}: {}", second - 1, comes_true(device, second - 1, &values));
        values = row.values();
        println!("second {second}: {}", comes_true(device, second, &values));
    }
}

/// A counter of milliseconds in 32 bits, shortly before it returns to zero. The last reading but one is a step back.
fn count_ticks() {
    let mut ticks = Ticks::new();
    for reading in [4294967000, 4294967295, 703, 704, 2704, 2703, 3704] {
        let now = ticks.read(reading);
        say("tick", now.map(|_| ()));
        println!("second {}", shown(now.ok()));
    }
}

fn main() {
    let mut device = Device::unstarted();
    let (mut three, mut nine) = (Connection::new(3), Connection::new(9));
    say("start", device.start(&SETTINGS));
    say("join zone 3", device.join(3, 1, 100));
    say("join zone 9", device.join(9, 2, 100));
    three.stream(&mut device, 100, &limit(7, 11_040_000, 60));
    let too_low = limit(9, 1000, 20); // below the minimum
    nine.stream(&mut device, 100, &[limit(8, 4_600_000, 20), too_low].concat());
    three.stream(&mut device, 100, &currents(10, [16_000; 3]));
    nine.stream(&mut device, 100, &currents(11, [20_000, 10_000, 13_000]));
    say("clock to 110", device.move_clock(110));
    print_currents(&device);
    poll_and_obey(&mut device, &mut nine, 110);
    set_targets(&mut device, &mut three, &mut nine, 110);
    print_plan(&device);
    print_rows(&device);
    live_through(&mut device);
    count_ticks();
}
