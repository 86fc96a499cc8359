
// ---- added for counting: rows whose first codes rise, four ligatures to a first code

const fn rising_shaping<const ROWS: usize>() -> [(u16, [u16; 4]); ROWS] {
    let (mut rows, mut at) = ([(0, [0; 4]); ROWS], 0);
    while at < ROWS {
        let form = 40_000 + 4 * at as u16;
        rows[at] = (1_000 + at as u16, [form, form + 1, form + 2, form + 3]);
        at += 1;
    }
    rows
}
const fn rising_ligatures<const N: usize, const ROWS: usize>() -> [([u16; N], u16); ROWS] {
    let (mut rows, mut at) = ([([0; N], 0); ROWS], 0);
    while at < ROWS {
        let mut component = 1;
        rows[at].0[0] = 1_000 + (at / 4) as u16;
        while component < N {
            rows[at].0[component] = 3_000 + 8 * component as u16 + (at % 4) as u16;
            component += 1;
        }
        rows[at].1 = 10_000 + at as u16;
        at += 1;
    }
    rows
}
fallback_over!(sixteen, rising_shaping::<16>(), rising_ligatures::<3, 16>(), rising_ligatures::<2, 16>(), rising_ligatures::<2, 16>());
fallback_over!(hundred, rising_shaping::<128>(), rising_ligatures::<3, 128>(), rising_ligatures::<2, 128>(), rising_ligatures::<2, 128>());
fallback_over!(thousand, rising_shaping::<1024>(), rising_ligatures::<3, 1024>(), rising_ligatures::<2, 1024>(), rising_ligatures::<2, 1024>());
