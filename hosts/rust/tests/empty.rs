//! Empty slices, in the place of each and of all. hosts/c/empty.c does the same with NULL.

mod power_up;

use nergutsai::*;
use power_up::UP;

#[test]
fn every_call_takes_empty_slices() {
    let tick = Event::Tick.row();
    let (mut record, mut memory, mut answer) = ([0; 55], [0; 8], [0; 4]);
    assert_eq!(call(&mut [], &mut memory, &tick, &mut answer), 1);
    assert_eq!(call(&mut record, &mut memory, &[], &mut answer), 2);
    assert_eq!(call(&mut record, &mut memory, &tick, &mut []), 3);
    assert_eq!(call(&mut record, &mut [], &tick, &mut answer), 0);
    assert_eq!(call(&mut [], &mut [], &[], &mut []), 1);
    assert_eq!(rate_call(&[], &mut [0; 3]), 1);
    assert_eq!(rate_call(&record, &mut []), 3);

    let mut board = Record::unpowered();
    let short = Err(Refusal::MemoryTooShort);
    assert_eq!(event(&mut board, &mut [], UP), short);
    assert!(event(&mut board, &mut memory, UP).is_ok());
    assert_eq!(event(&mut board, &mut [], Event::Tick), short);

    let mut file = [0; 64];
    assert_eq!(write(&[], &mut [], 0), Err(Refusal::NoRoom));
    assert_eq!(write(&[], &mut [], 1), Err(Refusal::PlacePastEnd));
    assert_eq!(write(&[], &mut file, 0), Ok(1));
    let order = Order {
        recording: &[],
        channels: 1,
        first: 0,
        last: 0,
        mask: 1,
    };
    assert_eq!(cut(&order, &mut [], 0), Err(Refusal::BadChoice));
    let one = Order {
        recording: &[5],
        ..order
    };
    assert_eq!(cut(&one, &mut [], 0), Err(Refusal::NoRoom));

    let end = write(&UP.row(), &mut file, 0).expect("it has room");
    assert!(list(&[], &mut []).contains("\nFILE 10 0\n"));
    assert!(list(&file[..end], &mut []).contains("\n1 2 00000000 0 0 0\n"));
    assert_eq!(list_call(&[], &mut [], &mut []), 0);
    assert_eq!(volts(&[], &mut []), Err(Refusal::NotASession));
    assert_eq!(volts(&file[..end], &mut []), Err(Refusal::NoPowerUp));
    assert_eq!(smallest_size(&[], &mut []), Err(Refusal::NotASession));
    assert_eq!(smallest_size(&file[..end], &mut []), Ok(0));
}
