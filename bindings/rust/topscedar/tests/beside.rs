//! An arena beside a sorted list, over random calls; and what the compiler says of the types.

use std::cmp::Reverse;
use std::collections::{BTreeSet, HashSet};
use std::rc::Rc;
use std::sync::{Arc, Mutex};
use std::time::Duration;
use topscedar::{Entry, Error, Key, Pointer, SortedArena};

struct Random(u64);

impl Random {
    fn below(&mut self, n: u64) -> u64 {
        self.0 ^= self.0 << 13;
        self.0 ^= self.0 >> 7;
        self.0 ^= self.0 << 17;
        self.0 % n
    }
}

#[test]
fn does_as_a_sorted_list() {
    let mut r = Random(0x9E3779B97F4A7C15);
    let mut arena: SortedArena<i32, Rc<u64>> = SortedArena::new().unwrap();
    let mut model: Vec<(i32, Rc<u64>, Pointer)> = Vec::new();
    let at = |model: &Vec<(i32, Rc<u64>, Pointer)>, key| model.partition_point(|it| it.0 <= key);
    // more calls than usual, as `bindings/check --long` asks for
    let calls = std::env::var("TOPSCEDAR_CALLS").map_or(60_000, |calls| calls.parse().unwrap());
    for i in 0..calls {
        let key = r.below(100) as i32 - 50;
        match r.below(13) {
            0..=3 => {
                let value = Rc::new(i);
                let p = arena.insert(key, value.clone()).unwrap();
                let to = at(&model, key);
                model.insert(to, (key, value, p));
            }
            4 | 5 if !model.is_empty() => {
                let (key, value, p) = model.remove(r.below(model.len() as u64) as usize);
                assert_eq!(
                    arena.remove(p),
                    Some(Entry {
                        pointer: p,
                        key,
                        value: value.clone()
                    })
                );
                assert_eq!(Rc::strong_count(&value), 1);
                assert!(arena.get(p).is_none() && !arena.contains(p) && arena.remove(p).is_none());
                assert_eq!(arena.rekey(p, 0), Err(Error::Stale));
            }
            6 if !model.is_empty() => {
                let from = r.below(model.len() as u64) as usize;
                let (before, value, p) = model.remove(from);
                assert_eq!(arena.rekey(p, key), Ok(before));
                let to = at(&model, key);
                model.insert(to, (key, value, p));
            }
            7 if !model.is_empty() => {
                let from = r.below(model.len() as u64) as usize;
                let value = Rc::new(i);
                assert_eq!(
                    arena.set_value(model[from].2, value.clone()).unwrap(),
                    model[from].1
                );
                model[from].1 = value;
            }
            8 => {
                let until = -45;
                let count = r.below(3) as usize;
                let gone: Vec<_> = arena.pop_until(until).take(count).collect();
                for entry in gone {
                    let (key, value, p) = model.remove(0);
                    assert_eq!((entry.key, entry.value, entry.pointer), (key, value, p));
                }
            }
            9 => {
                let (a, b) = (key.min(r.below(100) as i32 - 50), key);
                let want: Vec<_> = model
                    .iter()
                    .filter(|it| a <= it.0 && it.0 < b)
                    .map(|it| it.2)
                    .collect();
                assert_eq!(
                    arena.range(a..b).map(|it| it.pointer).collect::<Vec<_>>(),
                    want
                );
                assert_eq!(
                    arena
                        .range(a..b)
                        .rev()
                        .map(|it| it.pointer)
                        .collect::<Vec<_>>(),
                    want.iter().rev().copied().collect::<Vec<_>>()
                );
                let mut both = arena.range(a..b);
                let (mut front, mut back) = (Vec::new(), Vec::new());
                loop {
                    let from_front = r.below(2) == 0;
                    let (low, high) = both.size_hint();
                    let left = want.len() - front.len() - back.len();
                    assert!(low <= left && left <= high.unwrap());
                    match if from_front {
                        both.next()
                    } else {
                        both.next_back()
                    } {
                        Some(it) if from_front => front.push(it.pointer),
                        Some(it) => back.push(it.pointer),
                        None => break,
                    }
                }
                back.reverse();
                front.extend(back);
                assert_eq!(front, want);
            }
            10 => assert_eq!(
                arena.find(key).map(|it| it.pointer),
                model.iter().find(|it| it.0 == key).map(|it| it.2)
            ),
            11 if i % 100 == 0 => {
                let gone = key;
                arena.retain(|it| it.key != gone);
                model.retain(|it| it.0 != gone);
            }
            _ if i % 50 == 0 => {
                assert_eq!(arena.len(), model.len());
                assert!(arena
                    .iter()
                    .map(|it| (it.key, it.value.clone(), it.pointer))
                    .eq(model.iter().cloned()));
                assert_eq!(arena.iter().size_hint(), (model.len(), Some(model.len())));
                assert!(arena
                    .iter_mut()
                    .rev()
                    .map(|it| it.value.clone())
                    .eq(model.iter().rev().map(|it| it.1.clone())));
                let mut clone = arena.clone();
                assert!(clone == arena && clone.iter().eq(arena.iter()));
                assert_eq!(
                    arena.count(key),
                    model.iter().filter(|it| it.0 == key).count()
                );
                let rank = model.iter().filter(|it| it.0 < key).count();
                assert_eq!(arena.rank(key), rank);
                assert_eq!(
                    arena.nth(rank).map(|it| it.pointer),
                    model.get(rank).map(|it| it.2)
                );
                clone.compact();
                assert!(
                    clone == arena && clone.iter().zip(1..).all(|(it, i)| it.pointer.index() == i)
                );
                clone.shrink_to_fit();
                assert_eq!(clone.capacity(), model.len());
                assert_eq!(
                    clone.remove_key(key).map(|it| it.value),
                    model.iter().find(|it| it.0 == key).map(|it| it.1.clone())
                );
                if let Some((p, other)) =
                    model.first().map(|it| (it.2, SortedArena::<i64, u64>::new().unwrap()))
                {
                    assert!(!other.contains(p) && !clone.contains(p));
                    let key = model[0].0;
                    let is_shared = model.get(1).is_some_and(|it| it.0 == key);
                    let rekeyed = if is_shared { Err(Error::EqualKey) } else { Ok(key) };
                    assert_eq!(arena.rekey_unique(p, key), rekeyed);
                }
            }
            _ => {}
        }
    }
    let values: Vec<_> = model.iter().map(|it| it.1.clone()).collect();
    drop(model);
    drop(arena);
    assert!(values.iter().all(|it| Rc::strong_count(it) == 1));
}

#[test]
fn keeps_the_order_of_keys() {
    fn check<K: Key + PartialOrd + std::fmt::Debug>(keys: &[K]) {
        for pair in keys.windows(2) {
            assert!(pair[0].to_i64() < pair[1].to_i64(), "{pair:?}");
        }
        for key in keys {
            assert_eq!(K::from_i64(key.to_i64()).to_i64(), key.to_i64());
            assert!(K::from_i64(key.to_i64()).partial_cmp(key) != Some(std::cmp::Ordering::Less));
        }
    }
    check(&[i64::MIN, -1, 0, 1, i64::MAX]);
    check(&[0u64, 1, 1 << 63, u64::MAX]);
    check(&[0usize, 1, usize::MAX]);
    check(&[i8::MIN, 0, i8::MAX]);
    check(&[
        f64::NEG_INFINITY,
        -1.5,
        -5e-324,
        -0.0,
        0.0,
        5e-324,
        1.5,
        f64::INFINITY,
    ]);
    check(&[
        f32::NEG_INFINITY,
        -1.5,
        -0.0,
        0.0,
        1e-45,
        1.5,
        f32::INFINITY,
    ]);
    check(&['a', 'b', '\u{d7ff}', '\u{e000}', char::MAX]);
    check(&[false, true]);
    check(&[
        Duration::ZERO,
        Duration::from_nanos(1),
        Duration::from_secs(u64::MAX / 1_000_000_000),
    ]);
    check(&[(0u32, 0u32), (0, u32::MAX), (1, 0), (u32::MAX, 0)]);
    check(&[Reverse(5u64), Reverse(3), Reverse(0)]);
    assert!(f64::NAN.to_i64() > f64::INFINITY.to_i64());
}

#[test]
fn pointers_are_plain_data() {
    let mut arena = SortedArena::<i64, u64>::new().unwrap();
    let (p, q) = (arena.insert(1, 1).unwrap(), arena.insert(1, 2).unwrap());
    assert_eq!(Pointer::from_u64(p.to_u64().unwrap()), Some(p));
    assert_eq!(Pointer::new(p.index(), p.generation()), Some(p));
    assert_eq!(Pointer::from_u64(0), None);
    assert_eq!([p, q].into_iter().collect::<BTreeSet<_>>().len(), 2);
    assert_eq!([p, q, p].into_iter().collect::<HashSet<_>>().len(), 2);
    assert_eq!(std::mem::size_of::<Option<Pointer>>(), 16);
    arena[q] += 5;
    assert_eq!((arena[p], arena[q]), (1, 7));
}

#[test]
fn goes_to_other_threads() {
    fn is_send<T: Send>(_: &T) {}
    let arena = Arc::new(Mutex::new(SortedArena::<Duration, String>::default()));
    is_send(&arena);
    let threads: Vec<_> = (0..4)
        .map(|i| {
            let arena = arena.clone();
            std::thread::spawn(move || {
                for j in 0..1000 {
                    arena
                        .lock()
                        .unwrap()
                        .insert(Duration::from_millis(j), format!("{i} {j}"))
                        .unwrap();
                }
            })
        })
        .collect();
    for it in threads {
        it.join().unwrap();
    }
    let arena = Arc::try_unwrap(arena).unwrap().into_inner().unwrap();
    assert_eq!(arena.len(), 4000);
    let moved = std::thread::spawn(move || {
        arena
            .into_iter()
            .rev()
            .map(|it| it.value)
            .collect::<Vec<_>>()
    })
    .join()
    .unwrap();
    assert!(moved[0].ends_with(" 999") && moved[3999].ends_with(" 0"));
}

#[test]
fn builds_and_collects() {
    let a: SortedArena<char, usize> = "hello".chars().zip(0..).collect();
    assert_eq!(format!("{a:?}"), "{'e': 1, 'h': 0, 'l': 2, 'l': 3, 'o': 4}");
    let mut b = SortedArena::from_sorted([(1u8, "x"), (1, "y"), (9, "z")]).unwrap();
    assert_eq!(
        b.extend_sorted([(9, "w"), (8, "v")]),
        Err(Error::OutOfOrder(1))
    );
    let pointers = b.extend_sorted([(9, "w"), (10, "v")]).unwrap();
    assert_eq!(
        pointers
            .iter()
            .map(|&p| *b.get(p).unwrap().value)
            .collect::<String>(),
        "wv"
    );
    assert_eq!(b.iter().map(|it| *it.value).collect::<String>(), "xyzwv");
    assert_eq!(b.insert_unique(9, "q"), Err(Error::EqualKey));
    for it in &mut b {
        *it.value = "_";
    }
    assert_eq!(
        b.into_iter().map(|it| it.value).collect::<String>(),
        "_____"
    );
}
