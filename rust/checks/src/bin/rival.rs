//! `rival` prints how late HEFT without duplication finishes beside our plan,
//! on the graphs of section 6 of SPAGHETtI and on drawn sheets.

use checks::graphs::{all_series, Series};
use checks::heft::heft;
use checks::rival::{compare_rival, Comparison, Figures};
use reference::generator::{draw_sheet, Numbers, Random, Shape, Wish, SHAPES};
use reference::Sheet;

fn main() {
    println!("Finish in microseconds; ratio: HEFT's finish over ours, 1 is as early.");
    println!("Boards of kind 0, 1, ..");
    for series in all_series() {
        print_series(&series);
    }
    print_drawn();
}

fn print_series(series: &Series) {
    println!("\n{}", series.title);
    println!(
        "{:>5} {:>6} {:>5}  {:>8} {:>6} {:<12} {:>8} {:>6} {:<12} {:>6}",
        series.unit,
        "stages",
        "edges",
        "ours",
        "copies",
        "boards",
        "HEFT",
        "copies",
        "boards",
        "ratio"
    );
    for (size, sheet) in &series.sheets {
        let comparison = compare_rival(sheet, &heft(sheet));
        let Comparison { ours, rival } = comparison;
        println!(
            "{size:>5} {:>6} {:>5}  {} {} {:>6.3}",
            sheet.stages(),
            sheet.edges.len(),
            columns(sheet, &ours),
            columns(sheet, &rival),
            comparison.ratio()
        );
    }
}

fn columns(sheet: &Sheet, figures: &Figures) -> String {
    let boards: Vec<String> = figures.boards[..sheet.kinds]
        .iter()
        .map(usize::to_string)
        .collect();
    let (finish, copies) = (figures.finish, figures.copies);
    format!("{finish:>8} {copies:>6} {:<12}", boards.join(","))
}

/// Sheets of each shape and number of kinds; with one kind HEFT is as early.
fn print_drawn() {
    const SHEETS: usize = 300;
    let mut random = Random::new(62);
    println!("\n{SHEETS} drawn sheets a row, up to 60 stages, durations and waits below 100");
    println!(
        "{:<10} {:>5}  {:>8} {:>10} {:>9}",
        "shape", "kinds", "as early", "mean ratio", "largest"
    );
    for shape in SHAPES {
        for kinds in 2..=4 {
            let mut ratios: Vec<f64> = (0..SHEETS)
                .map(|_| drawn_ratio(&mut random, shape, kinds))
                .collect();
            ratios.sort_by(f64::total_cmp);
            let as_early = ratios.iter().filter(|&&ratio| ratio == 1.0).count();
            let mean = ratios.iter().sum::<f64>() / SHEETS as f64;
            let largest = ratios[SHEETS - 1];
            println!(
                "{:<10} {kinds:>5}  {as_early:>8} {mean:>10.3} {largest:>9.3}",
                format!("{shape:?}")
            );
        }
    }
}

fn drawn_ratio(random: &mut Random, shape: Shape, kinds: usize) -> f64 {
    let wish = Wish {
        kinds,
        stages: random.between(5, 60),
        edges: 1024,
        shape,
        numbers: Numbers::Short,
    };
    let sheet = draw_sheet(random, &wish);
    compare_rival(&sheet, &heft(&sheet)).ratio()
}
