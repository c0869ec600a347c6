//! Delivers one message to a guest, with as few calls as possible.

use synicboard::{msr, Board, OpenFault, Port, Reply, Sint, Ticket, Vp};

fn main() -> Result<(), OpenFault> {
    let mut board = Board::open(1, 4, Ticket::new(0))?;
    let setup = [
        (msr::SCONTROL, 1),     // enable the SynIC
        (msr::SIMP, 0x2001),    // message page at page 2
        (msr::SINT0 + 2, 0x50), // SINT2 raises vector 50
    ];
    for (register, value) in setup {
        assert_eq!(board.write(Vp::ZERO, register, value), Reply::Done);
    }
    // Port 3 has SINT2 as its target, and two buffers.
    assert_eq!(board.open_message_port(Port::new(3), Vp::ZERO, Sint::SINT2, 2), Reply::Done);
    println!("{:?}", board.post(Port::new(3), 1, b"\n"));
    for notice in board.notices() {
        println!("{notice:?}");
    }
    Ok(())
}
