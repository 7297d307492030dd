//! Writes a handover select with two carriers, Wi-Fi and Bluetooth, as a tag holds it.
use simbegyor_ndef::{EncodeError, HandoverSelect, MessageBuilder, NewRecord, PowerState};

/// What the other device needs for each carrier is opaque to NDEF: their own specifications say what it holds.
fn select(wifi: Vec<u8>, bluetooth: Vec<u8>) -> Result<Vec<u8>, EncodeError> {
    let select = HandoverSelect::builder(2)
        .alternative(PowerState::Active, b"w", &[])
        .alternative(PowerState::Activating, b"b", &[])
        .build()?;
    MessageBuilder::new()
        .record(select)
        .record(NewRecord::media("application/vnd.wfa.wsc", wifi).with_id("w"))
        .record(NewRecord::media("application/vnd.bluetooth.ep.oob", bluetooth).with_id("b"))
        .build()
}

fn main() -> Result<(), EncodeError> {
    let message = select(vec![0x10, 0x4A, 0, 1, 0x10], vec![8, 0, 1, 2, 3, 4, 5, 6])?;
    for line in message.chunks(16) {
        let octets: Vec<String> = line.iter().map(|octet| format!("{octet:02X}")).collect();
        println!("{}", octets.join(" "));
    }
    Ok(())
}
