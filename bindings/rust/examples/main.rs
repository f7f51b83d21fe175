//! One byte sent, and its frame on each network: `main PLAN`, the file of a plan with a port 10.
use afdx::{EndSystem, Network};
use std::error::Error;

fn main() -> Result<(), Box<dyn Error>> {
    let plan = std::env::args().nth(1).ok_or("usage: main PLAN")?;
    let mut it = EndSystem::open(&std::fs::read(plan)?)?;
    let mut port = it.port(10)?;
    port.send(&[1])?;
    it.poll(0)?;
    for (network, name) in [(Network::A, 'A'), (Network::B, 'B')] {
        it.each_frame(network, |frame| {
            let bytes: String = frame.iter().map(|byte| format!("{byte:02x}")).collect();
            println!("{name} 0 {bytes}");
        })?;
    }
    Ok(())
}
