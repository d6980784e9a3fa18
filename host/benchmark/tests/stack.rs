//! The table of stack: README's and the C header's are the same, and whole.

use benchmark::stack::table::{in_header, in_readme, of_header, of_readme, Cell, Table};
use benchmark::stack::table::{COLUMNS, OF_THE_PAGE, PROGRAM, ROWS};
use program::root;

#[test]
fn the_header_says_what_readme_says() {
    let readme = in_readme(&root());
    assert_eq!(in_header(&root()), readme.of_calls());
}

/// Every row has figures for refused calls and for those under 0, and for all sizes or for none; the page's, for all
/// that it takes and no other.
#[test]
fn no_figure_is_missing() {
    let readme = in_readme(&root());
    for (row, (name, _)) in ROWS.iter().enumerate() {
        let has = |column| readme.get(Cell { row, column }).is_some();
        let columns: Vec<bool> = (0..COLUMNS.len()).map(has).collect();
        let mut sizes = &columns[2..];
        if OF_THE_PAGE.contains(&row) {
            let (last, others) = sizes.split_last().expect("a column");
            assert!(!last && others.iter().all(|has| *has), "{name}");
            sizes = others;
        }
        assert!(columns[0] && columns[1], "{name}");
        assert!(sizes.iter().all(|has| *has == sizes[0]), "{name}");
    }
}

/// What is printed is what is read, rounded up.
#[test]
fn printed_tables_are_read() {
    let mut table = Table::default();
    for row in 0..ROWS.len() {
        for column in 0..COLUMNS.len() - row % 2 {
            let bytes = 100 * (1 + column + 7919 * row);
            table.raise(Cell { row, column }, bytes);
        }
    }
    assert_eq!(
        of_readme(&table.for_readme()).of_calls(),
        table.clone().of_calls()
    );
    assert_eq!(of_header(&table.for_header()), table.clone().of_calls());

    let cell = Cell { row: 0, column: 1 };
    let mut more = table.clone();
    more.raise(cell, 201);
    let printed = of_readme(&more.for_readme());
    assert_eq!(printed.get(cell), Some(300));
    assert_eq!(more.beyond(&table).count(), 1);
    assert_eq!(more.beyond(&printed).count(), 0);

    // The program's figure has something to spare.
    let cell = Cell {
        row: PROGRAM,
        column: 0,
    };
    let mut least = Table::default();
    least.raise(cell, 987_136);
    assert_eq!(of_readme(&least.for_readme()).get(cell), Some(1_000_000));
}

/// A figure that a table lacks is beyond it.
#[test]
fn a_missing_figure_is_beyond() {
    let mut table = Table::default();
    table.raise(Cell { row: 2, column: 3 }, 1);
    assert_eq!(table.beyond(&Table::default()).count(), 1);
}
