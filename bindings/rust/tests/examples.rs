//! The examples print what the files beside them say.

#[allow(dead_code)]
#[path = "../examples/read_temperature.rs"]
mod read_temperature;
#[allow(dead_code)]
#[path = "../examples/sixteen_workers.rs"]
mod sixteen_workers;

#[test]
fn a_temperature_is_read() {
    let printed = read_temperature::report().expect("no refusal");
    assert_eq!(printed, include_str!("../examples/read_temperature.txt"));
}

/// Whoever is faster, the totals are the same.
#[test]
fn sixteen_workers_lose_commands_only_apart() {
    for _ in 0..20 {
        let (apart, together) = (sixteen_workers::apart(), sixteen_workers::together());
        assert!(sixteen_workers::holds(&apart, &together));
        let printed = sixteen_workers::table(&apart, &together);
        assert_eq!(printed, include_str!("../examples/sixteen_workers.txt"));
    }
}
