//! A header as the settings of a run.

use engine::{Edge, Header, Settings, Size};

#[test]
fn settings() {
    let size = Size { nx: 5, ny: 7 };
    let header = Header {
        size,
        gx: -300,
        gy: 4096,
        count: 0,
        steps: 9_999,
        edge: Edge::Slip(3),
        drag: 200,
    };
    let expected = Settings {
        size,
        gx: -300,
        gy: 4096,
        edge: Edge::Slip(3),
        drag: 200,
    };
    assert_eq!(header.settings(), expected);
}
