//! The register words of document 01, seen through the calls that write them.

use crate::common::both;

#[test]
fn fields_keep_their_low_bits() {
    // DNF has four bits, ANFOFF is set for a filter switched off.
    assert!(both("nb new 0 timing=0 dnf=255 | 0 0").ends_with("W 00 00000F01\n= 0\n"));
    let built = "R 00 00000000\nW 00 00000000\nW 10 FFFFFFFF\nR 00 00000000\nW 00 00001F01\n= 0\n";
    assert_eq!(
        both("bl new 0 timing=FFFFFFFF dnf=255 analog=0 | 0 0"),
        built
    );
    assert!(both("nb new 0 timing=0 filter=16 | 0 0").ends_with("W 00 00000001\n= 0\n"));
    // SADD has ten bits, and a modify keeps all other fields.
    let read = "R 04 00000000\nR 24 00000000\nR 04 FFFFFFFF\nW 04 FEFFFFFE\n= 0\n";
    assert_eq!(both("nb master_read FFFF 255 | 0 0 FFFFFFFF"), read);
    let read = "R 04 00000000\nR 24 00000000\nR 04 00000000\nW 04 02FF27FE\n= 0\n";
    assert_eq!(both("nb master_read FFFF 255 | 0 0 0"), read);
    // An own address has seven bits, its place is 1.
    let moved = "W 08 000000FE\nW 08 000080FE\n= 0\n";
    assert_eq!(both("nb set_address FFFF"), moved);
    assert!(both("nb new 0 timing=0 own7=AA | 0 0 0").contains("W 08 00008054\n"));
    assert!(both("nb new 0 timing=0 own7raw=100 | 0 0 0").contains("W 08 00008000\n"));
    assert!(both("nb new 0 timing=0 own10=FFFF | 0 0 0").contains("W 08 000087FF\n"));
    assert!(both("bl new 0 timing=0 own2=FF:7 | 0 0 0").contains("W 0C 000087FE\n"));
}

#[test]
fn words_that_a_check_reads_and_writes() {
    // ADDCODE has seven bits; NBYTES is the whole buffer, RELOAD is set.
    let addressed = "R 18 FFFE0008\nR 04 00000000\nW 04 01FF0000\nW 1C 00000008\n= A 007F 1\n";
    assert_eq!(both("nb check | FFFE0008 0"), addressed);
    // RXDR has eight bits.
    let read = "nb set len=1\nnb check | 4 FFFFFFA5\n";
    assert_eq!(both(&format!("{read}nb data_s")), "= G A5\n");
    // A short TC sets STOP, TCR sets NACK with one byte.
    let short = "R 18 00000040\nR 04 00000000\nW 04 00004000\n= 5 1\n";
    assert_eq!(both("nb set len=3\nnb check | 40 0"), short);
    let refused = "R 18 00000080\nR 04 00FF0000\nW 04 00018000\n= 1\n";
    assert_eq!(both("nb check | 80 FF0000"), refused);
}

#[test]
fn enables_and_the_sbc_bit() {
    assert_eq!(both("nb listen | 0"), "R 00 00000000\nW 00 000000FE\n= 0\n");
    assert_eq!(
        both("nb unlisten | FFFFFFFF"),
        "R 00 FFFFFFFF\nW 00 FFFFFF01\n= 0\n"
    );
    assert_eq!(
        both("bl listen addr | 0"),
        "R 00 00000000\nW 00 00000008\n= 0\n"
    );
    assert_eq!(
        both("bl unlisten rxne | FF"),
        "R 00 000000FF\nW 00 000000FB\n= 0\n"
    );
    assert_eq!(both("bl clear_irq addr"), "W 1C 00000008\n= 0\n");
    assert_eq!(both("bl clear_irq rxne"), "= 0\n");
    assert_eq!(both("bl sbc 1 | 0"), "R 00 00000000\nW 00 00010000\n= 0\n");
    assert_eq!(
        both("nb sbc 0 | FFFFFFFF"),
        "R 00 FFFFFFFF\nW 00 FFFEFFFF\n= 0\n"
    );
}

#[test]
fn a_write_of_isr_starts_from_1() {
    let sent = "R 04 FFFFFFFF\nW 04 FE03FFFF\nW 18 00000001\nW 1C 00000008\n= 0\n";
    assert_eq!(both("nb slave_write 010203 | FFFFFFFF"), sent);
}

#[test]
fn an_expired_watchdog_switches_the_unit_off_and_on() {
    let expired =
        "R 00 000000FF\nW 00 000000FE\nR 00 00000012\nR 00 00000020\nW 00 00000021\n= 0\n";
    assert_eq!(both("nb set wd=1\nnb watchdog | FF 12 20"), expired);
    assert_eq!(both("nb set wd=2\nnb watchdog"), "= 0\n");
}

#[test]
fn the_flag_order_of_both_drivers() {
    let order = ["3FE", "2FE", "FE", "EE", "EC", "E8", "C8", "88", "8"];
    let written = [
        "1C 00000100",
        "1C 00000200",
        "1C 00000010",
        "28 00000007",
        "",
        "1C 00000020",
    ];
    for (word, written) in order.iter().zip(written) {
        let script = format!("nb set len=2 idx=1 data=0107\nnb check | {word} 5 5");
        let second = both(&script).lines().nth(1).unwrap().to_string();
        match written {
            "" => assert_eq!(second, "R 24 00000005"),
            _ => assert_eq!(second, format!("W {written}")),
        }
    }
    // A word with every flag ends a blocking wait with the wanted one.
    let wanted = "bl write 50 0102 | 0 0 3FF 100";
    assert!(
        both(wanted).contains("R 18 000003FF\nW 28 00000001\nR 18 00000100\nW 1C 00000100\n= 3\n")
    );
}
