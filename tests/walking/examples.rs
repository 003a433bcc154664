//! The examples S1 to S15 of docs/REFERENCE.md, with values that it gives for them.

use crate::frames::{complete, hypercube};
use crate::sketch::Sketch;
use crate::table::Table;

/// An example's values. What is held to no value is None.
#[derive(Default)]
pub struct Values {
    /// The label's answer number.
    pub number: u8,
    pub basis: Option<Vec<u64>>,
    pub basis_count: Option<usize>,
    pub assemblies: Option<Vec<u8>>,
    pub all: Option<Vec<u64>>,
    pub all_count: Option<usize>,
    /// Sizes with their numbers of rings.
    pub all_sizes: Option<Vec<(u8, usize)>>,
    pub smallest: Option<Vec<u64>>,
    pub smallest_sizes: Option<Vec<(u8, usize)>>,
    pub reduced: Option<Vec<u64>>,
    /// The label in hex.
    pub label: Option<&'static str>,
    /// The label's last field in hex.
    pub pairs: Option<&'static str>,
}

pub struct Example {
    pub name: &'static str,
    pub table: Table,
    pub values: Values,
}

const NO_RINGS: &str = "01000100020000030000040000";

/// A table from bonds written as in docs/REFERENCE.md.
fn table(atoms: u64, bonds: &str) -> Table {
    let bonds: Vec<(u8, u8)> = bonds
        .split_whitespace()
        .map(|bond| {
            let (a, b) = bond.split_once('-').expect("a bond has two ends");
            (
                a.parse().expect("an atom number"),
                b.parse().expect("an atom number"),
            )
        })
        .collect();
    Table::new(atoms, &bonds)
}

/// Table I of document 001, atoms from 0, each bond where it is first named.
const TABLE_I: &str = "0-1 0-8 0-7 1-7 1-2 2-3 3-4 4-5 4-9 5-6 6-7 8-9";

pub fn examples() -> Vec<Example> {
    let some = |list: &[u64]| Some(list.to_vec());
    let none = || Values {
        basis: Some(vec![]),
        all: Some(vec![]),
        label: Some(NO_RINGS),
        ..Values::default()
    };
    let refused = |number: u8| Values {
        number,
        ..Values::default()
    };
    let mut made = Vec::new();
    let mut add = |name: &'static str, table: Table, values: Values| {
        made.push(Example {
            name,
            table,
            values,
        })
    };

    add("S1", table(1, ""), none());
    add("S2", table(2, "0-1"), none());
    let label = Some("0100010102000303000103000203010400020103");
    add(
        "S3",
        table(3, "0-1 1-2 2-0"),
        Values {
            basis: some(&[7]),
            label,
            ..Values::default()
        },
    );
    let s4 = Values {
        basis: some(&[15, 19]),
        all: some(&[19, 28, 15]),
        smallest: some(&[19, 28]),
        reduced: some(&[28, 19]),
        assemblies: Some(vec![0, 0]),
        pairs: Some("0400020205"),
        ..Values::default()
    };
    add("S4", table(4, "0-1 1-2 2-3 3-0 0-2"), s4);
    let s5 = Values {
        all: some(&[7, 56]),
        assemblies: Some(vec![0, 1]),
        ..Values::default()
    };
    add("S5", table(5, "0-1 1-2 2-0 0-3 3-4 4-0"), s5);
    let s6 = Values {
        basis: some(&[63, 199]),
        all: some(&[199, 248, 63]),
        smallest: some(&[199, 248]),
        reduced: some(&[248, 199]),
        ..Values::default()
    };
    add("S6", table(7, "0-1 1-2 2-3 3-4 4-5 5-0 0-6 6-3"), s6);
    let s7 = Values {
        basis: some(&[11, 21, 38]),
        all: some(&[11, 21, 38, 56, 30, 45, 51]),
        smallest: some(&[11, 21, 38]),
        ..Values::default()
    };
    add("S7", table(4, "0-1 0-2 0-3 1-2 1-3 2-3"), s7);
    add(
        "S8",
        table(4, "0-1 1-2 2-0"),
        Values {
            label,
            ..Values::default()
        },
    );
    add("S9", table(3, "0-0 0-9"), refused(4));
    add("S10", table(3, "0-1 1-0"), refused(6));
    let s11 = Values {
        smallest_sizes: Some(vec![(3, 1), (7, 2)]),
        ..Values::default()
    };
    add("S11", table(10, TABLE_I), s11);
    let s12 = Values {
        all_sizes: Some(vec![(4, 6), (6, 16), (8, 6)]),
        smallest_sizes: Some(vec![(4, 5)]),
        ..Values::default()
    };
    add("S12", hypercube(3).table(), s12);
    let s13 = Values {
        basis_count: Some(10),
        all_count: Some(197),
        ..Values::default()
    };
    add("S13", complete(6).table(), s13);
    let mut seventh = complete(6);
    seventh.ear(0, 3, 1);
    add(
        "S13, seventh atom",
        seventh.table(),
        Values {
            number: 7,
            basis_count: Some(11),
            ..Values::default()
        },
    );
    let line = Sketch::ring(64);
    let s15 = Values {
        all: some(&[u64::MAX]),
        all_sizes: Some(vec![(64, 1)]),
        ..Values::default()
    };
    add("S15", line.table(), s15);
    add(
        "S15, atom count 65",
        Table {
            atoms: 65,
            ..line.table()
        },
        refused(2),
    );
    add(
        "S15, 65 bonds",
        Table::new(64, &[line.bonds, vec![(0, 2)]].concat()),
        refused(3),
    );
    made
}
