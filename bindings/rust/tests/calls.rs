//! Each call of the wrapper, done and refused. AFDX_DEMO names the file of the demonstration plan.
use afdx::{EndSystem, Error, Misuse, Network, PlanFault, SendFault, Up};

fn demo() -> Vec<u8> {
    std::fs::read(std::env::var("AFDX_DEMO").expect("AFDX_DEMO")).expect("the plan")
}

fn changed(old: &str, new: &str) -> Vec<u8> {
    String::from_utf8(demo()).expect("a text").replacen(old, new, 1).into_bytes()
}

#[test]
fn a_plan_is_refused_in_the_words_of_explain() {
    let error = EndSystem::open(&changed("1518", "63")).expect_err("a fault");
    let told = "1 fault\n5 OutOfRange: vl 1 (id 1), lmax is 63: 64 to 1518\n";
    assert_eq!(error, Error::Plan(PlanFault::OutOfRange, told.to_owned()));
    assert_eq!(error.to_string(), format!("the plan is refused: OutOfRange\n{told}"));
    assert!(matches!(EndSystem::open(b""), Err(Error::Plan(PlanFault::MissingKey, _))));
    assert!(matches!(EndSystem::open_table(b""), Err(Error::Plan(PlanFault::NoTable, _))));
    assert!(matches!(afdx::memory(b""), Err(Error::Plan(PlanFault::NoTable, _))));
    assert_eq!(afdx::explain(&demo()).as_deref(), Ok("no faults\n"));
}

#[test]
fn messages_are_sent_from_another_thread_and_drained() {
    let mut it = EndSystem::open(&demo()).expect("a plan");
    assert_eq!((it.ports(), it.links()), (Ok(vec![10]), Ok(vec![1])));
    let mut port = it.port(10).expect("a port");
    assert_eq!(it.port(10).err(), Some(Error::Misuse(Misuse::NoPort)));
    let sender = std::thread::spawn(move || {
        port.send(&[7; 8192]).expect("room");
        assert_eq!(port.send(&[]), Err(Error::Send(SendFault::Empty)));
        assert_eq!(port.send(&[7; 8193]), Err(Error::Send(SendFault::TooLong)));
        port.send(&[1]).expect("room");
        assert_eq!(port.send(&[1]), Err(Error::Send(SendFault::Full)));
        assert_eq!(port.accepted(), Ok(2));
        port
    });
    let port = sender.join().expect("no panic");
    assert_eq!(it.gather(), Err(Error::Misuse(Misuse::PortMissing)));
    assert_eq!(it.is_done(), Err(Error::Misuse(Misuse::NotGathered)));
    assert!(it.give_back(port).is_ok());
    assert_eq!(it.gather(), Ok(()));
    let mut now = 0;
    while !it.is_done().expect("gathered") {
        assert_eq!(it.poll(now), Ok(Up { a: true, b: true }));
        assert_eq!(it.frames(Network::A), Ok(1));
        assert_eq!(it.released(Network::B, 0).map(|it| u64::from(it.number)), Ok(now / 1000));
        assert_eq!(it.next_due(), Ok(Some(now + 1000)));
        now += 1000;
    }
    let counts = it.counts(1).expect("a link");
    assert_eq!((counts.frames, counts.messages, counts.last, now), (7, 2, 6000, 7000));
    assert_eq!(it.poll(0), Err(Error::Misuse(Misuse::TimeBack)));
    assert_eq!(it.frame(Network::A, 1, &mut [0; afdx::GREATEST_FRAME]), Err(Error::Misuse(Misuse::NoFrame)));
    assert_eq!(it.frame(Network::A, 0, &mut [0; 59]), Err(Error::Misuse(Misuse::SmallBuffer)));
    assert_eq!(it.frame(Network::A, 0, &mut [0; 60]), Ok(60));
}

#[test]
fn networks_fail_and_ports_go_home() {
    let (mut one, mut two) = (EndSystem::open(&demo()).expect("a plan"), EndSystem::open(&demo()).expect("a plan"));
    let mut port = one.port(10).expect("a port");
    port.send(&[1]).expect("room");
    let (error, port) = two.give_back(port).expect_err("another's");
    assert_eq!(error, Error::Misuse(Misuse::NoPort));
    assert_eq!(one.close(1, 0), Ok(1));
    assert_eq!(one.close(1, 1), Err(Error::Misuse(Misuse::NoSub)));
    assert!(one.fail(Network::A).is_ok() && one.fail(Network::B).is_ok());
    assert_eq!(one.poll(0), Ok(Up { a: false, b: false }));
    assert_eq!(one.poll(1000), Err(Error::BothDown));
    drop(one);
    drop(port);
}

#[test]
fn the_library_is_of_this_version() {
    let numbers: Vec<u32> = env!("CARGO_PKG_VERSION").split('.').map(|it| it.parse().expect("a number")).collect();
    assert_eq!(afdx::library_version(), 10_000 * numbers[0] + 100 * numbers[1] + numbers[2]);
}
