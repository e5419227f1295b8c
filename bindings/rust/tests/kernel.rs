//! The marked examples of document 01 and what the change requests make of them, through the crate's types.
use cekarum::*;

const BOTH: Settings = Settings {
    directions: Directions::Both,
    accepts_limits: true,
    accepts_setpoints: true,
    minimum: 0,
    maximum: ByDirection { consumption: None, production: None },
    failsafe: ByDirection { consumption: 4_200_000, production: 0 },
    failsafe_duration: 7200,
    energy_manager: false,
    phases: 3,
    accepts_current_limits: true,
};

fn device(settings: Settings, zones: &[(u64, u64)]) -> Device {
    let mut device = Device::started(&settings).unwrap();
    for &(zone, rank) in zones {
        device.join(zone, rank, 0).unwrap();
    }
    device
}

fn consumption<T: Default>(value: T) -> ByDirection<T> {
    ByDirection { consumption: value, production: T::default() }
}

fn limit(limit: i64, duration: u32) -> Command {
    Command::SetLimit { limit: consumption(Field::Number(limit)), duration, cause: 0 }
}

/// Sends a command; the response has to be one that reads back with the same number.
fn send(device: &mut Device, zone: u64, time: u64, command: Command) -> (Result<(), Refusal>, Option<Outcome>) {
    let (mut frame, mut out) = ([0; REQUEST_MAX], [0; RESPONSE_MAX]);
    let frame = Request { id: 7, command }.write(&mut frame).unwrap();
    assert_eq!(Request::read(frame), Ok(Request { id: 7, command }));
    let answer = device.frame(zone, time, frame, &mut out);
    let response = Response::read(command.kind(), answer.response).unwrap();
    assert_eq!((response.id, response.status), (7, answer.outcome));
    let mut again = [0; RESPONSE_MAX];
    assert_eq!(response.write(command.kind(), &mut again), Ok(answer.response));
    (answer.outcome, response.result)
}

fn accept(device: &mut Device, zone: u64, time: u64, command: Command) -> Outcome {
    let (outcome, result) = send(device, zone, time, command);
    outcome.unwrap();
    result.unwrap()
}

#[test]
fn p1_the_smallest_limit_holds() {
    let mut device = device(BOTH, &[(1, 1), (2, 1), (3, 1)]);
    for (zone, value) in [(1, 9000), (2, 7000), (3, 7000)] {
        accept(&mut device, zone, 0, limit(value, 0));
    }
    assert_eq!(device.ask().limit, consumption(Some(7000)));
    assert_eq!(device.ask().state, ControlState::Limited);
}

#[test]
fn p2_a_duration_ends() {
    let mut device = device(BOTH, &[(1, 1)]);
    accept(&mut device, 1, 100, limit(5000, 60));
    device.move_clock(159).unwrap();
    assert_eq!(device.ask().limit.consumption, Some(5000));
    device.move_clock(160).unwrap();
    assert_eq!(device.ask().limit.consumption, None);
    assert_eq!(device.move_clock(159), Err(Refusal::BAD_TIME));
}

#[test]
fn p3_who_leaves_takes_its_values_along() {
    let mut device = device(BOTH, &[(1, 1)]);
    accept(&mut device, 1, 0, limit(5000, 0));
    device.leave(1, 1).unwrap();
    device.join(1, 1, 2).unwrap();
    assert_eq!(device.ask(), Values { state: ControlState::Controlled, ..Values::default() });
}

#[test]
fn p4_null_removes_one_direction() {
    let mut device = device(BOTH, &[(1, 1)]);
    let both = ByDirection { consumption: Field::Number(5000), production: Field::Number(6000) };
    accept(&mut device, 1, 0, Command::SetLimit { limit: both, duration: 0, cause: 1 });
    accept(&mut device, 1, 0, Command::SetLimit { limit: consumption(Field::Null), duration: 0, cause: 1 });
    assert_eq!(device.ask().limit, ByDirection { consumption: None, production: Some(6000) });
}

#[test]
fn p5_and_p6_values_that_are_refused() {
    let mut device = device(Settings { minimum: 1_380_000, ..BOTH }, &[(1, 1)]);
    let before = device.clone();
    for (value, refusal, reason) in [
        (-1, Refusal::BAD_VALUE, RejectReason::InvalidValue),
        (1_379_999, Refusal::BELOW_MINIMUM, RejectReason::BelowMinimum),
        (1, Refusal::BELOW_MINIMUM, RejectReason::BelowMinimum),
    ] {
        let (outcome, result) = send(&mut device, 1, 5, limit(value, 0));
        assert_eq!(outcome, Err(refusal));
        assert_eq!(result.unwrap().reason, Some(reason));
        assert!(!result.unwrap().applied);
        assert_eq!(device, before);
    }
    for value in [1_380_000, 0] {
        assert_eq!(accept(&mut device, 1, 5, limit(value, 0)).effective.consumption, Some(value as u64));
    }
}

#[test]
fn p7_a_limit_above_the_contract_is_the_contract() {
    let maximum = consumption(Some(43_000_000));
    let mut device = device(Settings { maximum, ..BOTH }, &[(1, 1)]);
    let above = accept(&mut device, 1, 0, limit(43_000_001, 0));
    assert_eq!((above.effective.consumption, above.reason), (Some(43_000_000), Some(RejectReason::AboveContractual)));
    let equal = accept(&mut device, 1, 0, limit(43_000_000, 0));
    assert_eq!((equal.effective.consumption, equal.reason), (Some(43_000_000), None));
}

#[test]
fn p8_the_failsafe_ends() {
    let mut device = device(BOTH, &[(1, 1), (2, 1)]);
    device.lost(1, 900).unwrap();
    device.lost(2, 1000).unwrap();
    assert_eq!(device.lost(2, 1000), Err(Refusal::ALREADY));
    device.move_clock(8199).unwrap();
    assert_eq!(device.ask().state, ControlState::Failsafe);
    assert_eq!(device.ask().limit, ByDirection { consumption: Some(4_200_000), production: Some(0) });
    device.move_clock(8200).unwrap();
    assert_eq!(device.ask(), Values::default());
    device.back(1, 8200).unwrap();
    assert_eq!(device.ask().state, ControlState::Controlled);
}

#[test]
fn p9_equal_rank_the_smaller_id() {
    let mut device = device(BOTH, &[(6, 2), (4, 2)]);
    for (zone, value) in [(6, 600), (4, 400)] {
        accept(&mut device, zone, 0, Command::SetSetpoint { setpoint: consumption(Some(value)), duration: Some(0), cause: 0 });
    }
    assert_eq!(device.ask().setpoint.consumption, Some(400));
    accept(&mut device, 4, 0, Command::ClearSetpoint(Some(Direction::Consumption)));
    assert_eq!(device.ask().setpoint.consumption, Some(600));
}

#[test]
fn p10_a_row_where_something_changes() {
    let mut device = device(BOTH, &[(1, 1), (2, 1)]);
    accept(&mut device, 1, 0, limit(5000, 50));
    accept(&mut device, 2, 0, limit(5000, 70));
    let mut rows = [Row::EMPTY; ROWS_MAX];
    let plan = device.plan(&mut rows).unwrap();
    assert_eq!(plan.iter().map(Row::second).collect::<Vec<_>>(), [70]);
    assert_eq!(plan[0].values(), Values { state: ControlState::Controlled, ..Values::default() });
    let mut records = [Row::EMPTY; ROWS_MAX];
    assert_eq!(device.plain_plan(&mut records).unwrap(), plan);
    assert_eq!(device.plan(&mut []), Err(Refusal::NO_SPACE));
}

#[test]
fn a_forgotten_setpoint_ends() {
    let mut device = device(BOTH, &[(1, 1)]);
    let setpoint = consumption(Some(7_400_000));
    accept(&mut device, 1, 10, Command::SetSetpoint { setpoint, duration: None, cause: 0 });
    let mut rows = [Row::EMPTY; ROWS_MAX];
    assert_eq!(device.plan(&mut rows).unwrap()[0].second(), 3610);
    accept(&mut device, 1, 10, Command::SetSetpoint { setpoint, duration: Some(0), cause: 0 });
    assert!(device.plan(&mut rows).unwrap().is_empty());
}

#[test]
fn currents_by_phase() {
    let mut device = device(Settings { phases: 2, ..BOTH }, &[(1, 1)]);
    let set = |current| Command::SetCurrentLimits { direction: Direction::Production, current, duration: 0, cause: 2 };
    let done = accept(&mut device, 1, 0, set([Field::Number(16_000), Field::Number(10_000), Field::Absent]));
    assert_eq!(done.currents, [Some(16_000), Some(10_000), None]);
    accept(&mut device, 1, 0, set([Field::Null, Field::Absent, Field::Absent]));
    assert_eq!(device.ask().current.map(|pair| pair.production), [None, Some(10_000), None]);
    let (outcome, _) = send(&mut device, 1, 0, set([Field::Absent, Field::Absent, Field::Number(1)]));
    assert_eq!(outcome, Err(Refusal::BAD_VALUE));
    accept(&mut device, 1, 0, Command::ClearCurrentLimits(None));
    assert_eq!(device.ask().current, Values::default().current);
}

#[test]
fn overrides_and_refused_starts() {
    let mut device = device(BOTH, &[(1, 1)]);
    device.set_override(OverrideReason::LegalRequirement, Direction::Production, 5).unwrap();
    assert_eq!(device.ask().state, ControlState::Override);
    assert_eq!(send(&mut device, 1, 5, limit(5, 0)).0, Err(Refusal::OVERRIDDEN));
    let wrong = device.set_override(OverrideReason::Safety, Direction::Production, 5);
    assert_eq!(wrong, Err(Refusal::BAD_OVERRIDE));
    device.clear_override(6).unwrap();
    assert_eq!(device.clear_override(6), Err(Refusal::ALREADY));

    assert_eq!(Device::started(&Settings { phases: 4, ..BOTH }), Err(Refusal::BAD_SETTINGS));
    assert_eq!(Device::started(&Settings { maximum: consumption(Some(u64::MAX)), ..BOTH }), Err(Refusal::BAD_SETTINGS));
    assert_eq!(device.start(&Settings { phases: 4, ..BOTH }), Err(Refusal::BAD_SETTINGS));
    assert_eq!(device, Device::started(&Settings::default()).unwrap());
    assert_eq!(device.join(1, 4, 0), Err(Refusal::BAD_ZONE));
    device.join(1, 3, 0).unwrap();
    assert_eq!(send(&mut device, 1, 0, limit(5, 0)).0, Err(Refusal::NOT_SUPPORTED));
    assert_eq!(Device::from_words(*device.words()), device);
}

/// Document 01's frame: SetLimit of 11,040,000 mW, and its response, cut at every place.
#[test]
fn scraps_of_every_length() {
    let frame = b"\x00\x00\x00\x13\xa5\x01\x07\x02\x01\x03\x05\x04\x01\x05\xa2\x01\x1a\x00\xa8\x75\x00\x04\x00";
    for cut in 0..=frame.len() {
        let mut device = device(BOTH, &[(3, 1)]);
        let mut receiver = Receiver::new();
        if cut < frame.len() {
            assert_eq!(receiver.receive(&frame[..cut]), Ok(Received { taken: cut, frame: None }));
        }
        let rest = if cut < frame.len() { &frame[cut..] } else { &frame[..] };
        let got = receiver.receive(rest).unwrap();
        assert_eq!((got.taken, got.frame), (rest.len(), Some(&frame[..])));
        let mut out = [0xee; RESPONSE_MAX];
        let answer = device.frame(3, 100, got.frame.unwrap(), &mut out);
        assert_eq!(answer.outcome, Ok(()));
        assert_eq!(answer.response, b"\x00\x00\x00\x11\xa3\x01\x07\x02\x00\x03\xa3\x01\xf5\x02\x02\x03\x1a\x00\xa8\x75\x00");
    }
    let mut receiver = Receiver::new();
    assert_eq!(receiver.receive(&[0, 0, 8, 1]), Err(Refusal::BAD_LENGTH));
    assert_eq!(receiver.receive(frame), Err(Refusal::BAD_LENGTH));
}

#[test]
fn a_response_beside_a_refusal_and_none_without_room() {
    let mut device = device(BOTH, &[]);
    let mut frame = [0; REQUEST_MAX];
    let frame = Request { id: 1, command: limit(5, 0) }.write(&mut frame).unwrap();
    let mut out = [0xee; RESPONSE_MAX];
    let answer = device.frame(1, 0, frame, &mut out);
    assert_eq!((answer.outcome, answer.response), (Err(Refusal::NOT_JOINED), &b"\x00\x00\x00\x05\xa2\x01\x01\x02\x09"[..]));
    let answer = device.frame(1, 0, frame, &mut []);
    assert_eq!((answer.outcome, answer.response), (Err(Refusal::NOT_JOINED), &[][..]));
    assert_eq!(device.frame(1, 0, &[], &mut []).outcome, Err(Refusal::BAD_LENGTH));
}

#[test]
fn ticks_over_the_end_of_the_counter() {
    let mut ticks = Ticks::new();
    let seconds = [u32::MAX - 499, 499, 500, 499].map(|tick| ticks.read(tick));
    assert_eq!(seconds, [Ok(0), Ok(0), Ok(1), Err(Refusal::BAD_TIME)]);
}

#[test]
fn measurements_at_their_ends() {
    let least = Measurement::read(b"\xa1\x01\x3b\x7f\xff\xff\xff\xff\xff\xff\xff").unwrap();
    assert_eq!(least, Measurement { ac_active_power: Some(i64::MIN), ..Measurement::default() });
    assert_eq!((least.power_flow(), least.dc_flow(), least.phase_flow(0)), (Flow::Out, Flow::Absent, Flow::Absent));
    let by_phase = Measurement::read(b"\xa1\x0a\xa2\x00\x05\x02\x20").unwrap();
    assert_eq!(by_phase.ac_active_power_per_phase, [Some(5), None, Some(-1)]);
    assert_eq!([0, 1, 2, 3].map(|phase| by_phase.phase_flow(phase)), [Flow::In, Flow::Absent, Flow::Out, Flow::Absent]);
    assert_eq!(Measurement::read(b"\xa1\x18\x32\x18\x65"), Err(Refusal::BAD_MESSAGE)); // 101 percent
    assert_eq!(Measurement { power_factor: Some(1001), ..least }.write(&mut [0; 99]), Err(Refusal::BAD_MESSAGE));
}

#[test]
fn every_attribute_comes_back() {
    let full = Measurement {
        ac_active_power: Some(-1),
        ac_reactive_power: Some(2),
        ac_apparent_power: Some(3),
        ac_active_power_per_phase: [Some(10), Some(-11), Some(12)],
        ac_reactive_power_per_phase: [Some(20), None, Some(-22)],
        ac_apparent_power_per_phase: [Some(30), Some(31), Some(32)],
        ac_current_per_phase: [Some(-40), Some(41), Some(42)],
        ac_voltage_per_phase: [Some(50), Some(51), Some(u32::MAX)],
        ac_voltage_phase_to_phase_pair: [Some(60), Some(61), Some(62)],
        ac_frequency: Some(50_000),
        power_factor: Some(-1000),
        ac_energy_consumed: Some(u64::MAX),
        ac_energy_produced: Some(71),
        dc_power: Some(0),
        dc_current: Some(-72),
        dc_voltage: Some(73),
        dc_energy_in: Some(74),
        dc_energy_out: Some(75),
        state_of_charge: Some(100),
        state_of_health: Some(99),
        state_of_energy: Some(76),
        useable_capacity: Some(77),
        cycle_count: Some(78),
        temperature: Some(-3276),
    };
    let mut out = [0; MEASUREMENT_MAX];
    let payload = full.write(&mut out).unwrap();
    assert_eq!(Measurement::read(payload), Ok(full));
    assert_eq!(full.dc_flow(), Flow::None);
}

#[test]
fn a_report() {
    let inputs = Inputs { endpoint: 0, map: 1, phases: 1, ..Inputs::default() };
    let mut pairs = [Pair::default(); PAIRS_MAX];
    // DEVICE_ROOT forbids all eleven bits; bit 0 is set
    assert_eq!(report(&inputs, &[], &mut pairs), Ok(&[Pair { group: 5, number: 0 }][..]));
    assert_eq!(report(&inputs, &[2, 2], &mut pairs), Err(Refusal::NOT_ASCENDING));
    assert_eq!(report(&Inputs { phases: 0, ..inputs }, &[], &mut pairs), Err(Refusal::BAD_SETTINGS));
    assert_eq!(report(&inputs, &[], &mut []), Err(Refusal::NO_SPACE));
}

#[test]
fn the_archive_says_what_it_is() {
    assert!(made_by().starts_with("cekarum "), "{}", made_by());
}
