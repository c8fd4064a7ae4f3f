//! Sets that cost most. Of one AllDifferent (request 2.1): pairs without end, wide pairs, values without end. Of Ifs (request 2.5):
//! what is visited twice at each level, every pair of an AllDifferent made anew.

/// Some expressions, each by its words, over so many variables from 0 to `high`.
fn different(variables: usize, high: i32, exprs: Vec<Vec<i32>>) -> Vec<i32> {
    let domains = [0, 0, high].repeat(variables);
    [vec![0, variables as i32], domains, vec![1, 3, exprs.len() as i32], exprs.concat()].concat()
}

/// One variable from 0 to `high`, written so many times.
fn times(count: usize, high: i32) -> Vec<i32> {
    different(1, high, vec![vec![21, 0]; count])
}

/// Ten sums of all 64 variables, and 930 times a variable: no pair has more than 64 different ones, and every pair has to be looked at.
fn wide() -> Vec<i32> {
    let sum: Vec<i32> = [vec![22, 64], (0..64).flat_map(|v| [1, 21, v]).collect()].concat();
    let variables = (0..930).map(|k| vec![21, k % 64]);
    different(64, 1, [vec![sum; 10], variables.collect()].concat())
}

/// Variables that use up their values, the domains listed.
fn listed(count: i32) -> Vec<i32> {
    let domain: Vec<i32> = [vec![1, count], (0..count).collect()].concat();
    let variables = (0..count).flat_map(|v| [21, v]).collect();
    [vec![0, count], domain.repeat(count as usize), vec![1, 3, count], variables].concat()
}

/// A rule over two Booleans: 0 equals an If of constants whose condition is such a comparison, so many times.
fn constants(levels: usize) -> Vec<i32> {
    let inner = [18, 0, 23].repeat(levels);
    [vec![2, 0, 1, 1], inner, vec![12, 2, 11, 0, 11, 1], [20, 1, 20, 0, 20, 0].repeat(levels)].concat()
}

/// A column of an If whose condition has Iff in so many levels.
fn iffs(levels: usize) -> Vec<i32> {
    let condition = [[16].repeat(levels), vec![11, 0], [11, 1].repeat(levels)].concat();
    [vec![2, 0, 1, 2, 1, 0, 23], condition, vec![20, 0, 20, 1]].concat()
}

/// An AllDifferent of so many Ifs.
fn different_ifs(count: usize, condition: &[i32]) -> Vec<i32> {
    let choice = [&[23], condition, &[21, 0, 20, 7]].concat();
    [vec![2, 1, 0, 0, 5, 1, 3, count as i32], choice.repeat(count)].concat()
}

pub fn extremes() -> Vec<(&'static str, Vec<i32>)> {
    let variables = |count: i32| (0..count).map(|v| vec![21, v]).collect();
    vec![
        ("2044 times one variable", times(2044, 1)),
        ("10 sums of 64 variables, 930 variables", wide()),
        ("256 variables of 256 values", different(256, 255, variables(256))),
        ("61 variables of 61 listed values", listed(61)),
        ("1490 times a variable of 1490 values", times(1490, 1489)),
        ("2044 times a variable of 2044 values", times(2044, 2043)),
        ("14 nested Ifs of constants", constants(14)),
        ("30 nested Ifs of constants", constants(30)),
        ("13 nested Iff in a column's condition", iffs(13)),
        ("60 nested Iff in a column's condition", iffs(60)),
        ("370 differing Ifs of one condition", different_ifs(370, &[12, 2, 11, 0, 11, 1])),
        ("200 differing Ifs with a Xor", different_ifs(200, &[15, 11, 0, 11, 1])),
    ]
}
