//! Document 01's worked store, through the store that owns its words.
use zdd::Refusal::{Full, Item, NoFile};
use zdd::Store;

#[test]
fn worked_store() -> Result<(), zdd::Refusal> {
    let mut store = Store::with_lengths(12, 7, 16, 512)?;
    assert_eq!(store.record().capacity, 4);
    assert_eq!((store.change(1, 1), store.added()), (Ok(2), 1));
    assert_eq!((&store.nodes()[..3], store.lookup()[1]), (&[1, 0, 1][..], 2));
    assert_eq!(store.change(1, 2), Ok(3));
    assert_eq!((store.union(2, 3), &store.nodes()[6..9]), (Ok(4), &[2, 2, 1][..]));
    assert_eq!((store.union(3, 2), store.added()), (Ok(4), 0));
    assert_eq!((store.diff(4, 2), store.intsec(4, 1)), (Ok(3), Ok(0)));
    assert_eq!((store.subset1(4, 2), store.subset0(4, 2)), (Ok(1), Ok(2)));
    assert_eq!((store.change(4, 1), &store.nodes()[9..]), (Ok(5), &[2, 1, 2][..]));
    assert_eq!(store.record().count, 4);
    assert_eq!((store.change(1, 3), store.change(5, 1)), (Err(Full), Ok(4)));
    assert_eq!(store.save(2)?, [0x01, 0x01, 0, 0, 0, 0]);
    assert_eq!(store.save(4)?, [0x01, 0x02, 0, 0, 0, 0, 0x06, 0x02, 0, 0, 0, 0x01, 0, 0, 0]);
    assert_eq!(store.load(&[0x01, 0x01, 0, 0, 0, 0x01, 0x01, 0]), Err(NoFile));
    assert_eq!((store.load(&[0x01, 0, 0, 0, 0]), store.load(&[])), (Err(NoFile), Err(NoFile)));
    assert_eq!((store.change(1, 0), store.change(1, 513)), (Err(Item), Err(Item)));
    assert!(store.audit());
    Ok(())
}
