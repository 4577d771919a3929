//! Random buffers under each format: a column that is made of them leads nowhere else, whatever
//! they hold. Run it under valgrind to see that.
use vortex_select::arrow::{select, Buffer, Column, Field, Node, Step};

struct Dice(u64);

impl Dice {
    fn roll(&mut self) -> u64 {
        self.0 ^= self.0 << 13;
        self.0 ^= self.0 >> 7;
        self.0 ^= self.0 << 17;
        self.0 >> 8
    }

    fn below(&mut self, bound: usize) -> usize {
        self.roll() as usize % bound
    }

    fn one<T: Copy>(&mut self, list: &[T]) -> T {
        list[self.below(list.len())]
    }
}

const FORMATS: [&str; 22] = [
    "n",
    "b",
    "c",
    "I",
    "l",
    "w:3",
    "d:9,2,256",
    "u",
    "U",
    "vu",
    "vz",
    "+s",
    "+l",
    "+L",
    "+m",
    "+w:2",
    "+vl",
    "+vL",
    "+us:0,3",
    "+ud:3,0",
    "tss:UTC",
    "tin",
];

/// Bytes in which numbers of 4 and 8 bytes are small, mostly.
fn random_buffer(dice: &mut Dice) -> Vec<u8> {
    let len = dice.one(&[0, 1, 3, 8, 16, 24, 48, 90]);
    let width = dice.one(&[1, 4, 8]);
    let byte = |dice: &mut Dice, k: usize| match dice.below(60) {
        0 => dice.one(&[0xff, 0x80, 0x7f]),
        _ if k % width > 0 => 0,
        _ => dice.below(6) as u8,
    };
    (0..len).map(|k| byte(dice, k)).collect()
}

fn random_column(dice: &mut Dice, levels: usize) -> Option<Column> {
    let format = dice.one(&FORMATS);
    let count = match format {
        _ if levels == 0 && format.starts_with('+') => return None,
        "+us:0,3" | "+ud:3,0" | "+s" => 2,
        _ if format.starts_with('+') => 1,
        _ => 0,
    };
    let children = (0..count)
        .map(|_| random_column(dice, levels - 1))
        .collect::<Option<_>>()?;
    let dictionary = match format {
        "c" | "I" | "l" if levels > 0 && dice.below(3) == 0 => random_column(dice, levels - 1),
        _ => None,
    };
    let buffers = match format {
        "n" => 0,
        "+s" | "+w:2" | "+us:0,3" => 1,
        "u" | "U" | "+vl" | "+vL" => 3,
        "vu" | "vz" => 3 + dice.below(3),
        _ => 2,
    };
    let buffer = |dice: &mut Dice| -> Option<Box<dyn Buffer>> {
        (dice.below(5) > 0).then(|| Box::new(random_buffer(dice)) as _)
    };
    let buffers = (0..buffers).map(|_| buffer(dice)).collect();
    let field = Field {
        format: format.into(),
        ..Field::default()
    };
    let (len, offset) = (dice.below(5), dice.one(&[0, 0, 1, 3]));
    Column::from_parts(field, len, -1, offset, buffers, children, dictionary).ok()
}

/// Reads all bytes of a column, and returns how many there are.
fn bytes_of(node: Node<'_>) -> usize {
    let buffers = node.buffers().expect("a column that was tested");
    let sum = |bytes: &[u8]| bytes.iter().map(|byte| usize::from(*byte)).sum::<usize>();
    let own: usize = buffers
        .iter()
        .flatten()
        .map(|bytes| sum(bytes) % 2 + bytes.len())
        .sum();
    let nested = node.children().into_iter().chain(node.dictionary());
    own + nested.map(bytes_of).sum::<usize>()
}

#[test]
fn columns_of_random_buffers_stay_within_them() {
    let calls = std::env::var("VORTEX_ARROW_CALLS").map_or(20_000, |n| n.parse().unwrap());
    let mut dice = Dice(88_172_645_463_325_252);
    let (mut made, mut valid, mut picked) = (0, 0, 0);
    while made < calls {
        let mut column = match random_column(&mut dice, 2) {
            Some(column) => column,
            None => continue,
        };
        made += 1;
        std::hint::black_box(bytes_of(column.node()));
        let _ = (
            column.to_texts(),
            column.to_numbers(),
            column.to_ranges(),
            column.to_chosen(),
        );
        valid += usize::from(column.check().is_ok());
        let len = column.len() as u64;
        let indices: Vec<_> = (0..3)
            .map(|_| Some(dice.roll() % (len + 1)).filter(|k| *k < len))
            .collect();
        for steps in [
            vec![],
            vec![Step::take_or_null(&indices)],
            vec![Step::slice(0, len / 2)],
        ] {
            if let Ok(left) = select(&mut column, &steps) {
                picked += 1;
                std::hint::black_box(bytes_of(left.node()));
                let _ = (left.to_texts(), left.to_numbers());
            }
        }
        for child in column
            .into_children()
            .into_iter()
            .filter(|child| !child.is_released())
        {
            std::hint::black_box(bytes_of(child.node()));
        }
    }
    assert!(
        valid > made / 5 && valid < made && picked > made,
        "{made} {valid} {picked}"
    );
}
