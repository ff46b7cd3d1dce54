//! The plot: the verdict's time over the size of the file, for both sides.

const WIDTH: f64 = 720.0;
const HEIGHT: f64 = 420.0;
const LEFT: f64 = 70.0;
const RIGHT: f64 = 20.0;
const TOP: f64 = 40.0;
const BOTTOM: f64 = 60.0;

/// A step of 1, 2 or 5 times a power of ten that cuts the range into about six.
fn step(most: f64) -> f64 {
    let rough = most / 6.0;
    let power = 10f64.powf(rough.log10().floor());
    let factor = [1.0, 2.0, 5.0, 10.0].into_iter().find(|factor| factor * power >= rough);
    factor.unwrap_or(10.0) * power
}

fn marks(most: f64) -> impl Iterator<Item = f64> {
    let step = step(most);
    (0..).map(move |i| i as f64 * step).take_while(move |mark| *mark <= most)
}

/// Points are file size in bytes, and nanoseconds of our side and of the peer.
pub fn svg(points: &[(usize, [f64; 2])]) -> String {
    let mut points = points.to_vec();
    points.sort_by_key(|point| point.0);
    let most_bytes = points.iter().map(|point| point.0).max().unwrap_or(1) as f64 * 1.05;
    let most_ms = points.iter().flat_map(|point| point.1).fold(1.0, f64::max) / 1e6 * 1.1;
    let x = |bytes: f64| LEFT + bytes / most_bytes * (WIDTH - LEFT - RIGHT);
    let y = |ms: f64| HEIGHT - BOTTOM - ms / most_ms * (HEIGHT - TOP - BOTTOM);

    let mut out = format!(
        "<svg xmlns=\"http://www.w3.org/2000/svg\" viewBox=\"0 0 {WIDTH} {HEIGHT}\" \
         font-family=\"sans-serif\" font-size=\"13\">\n\
         <rect width=\"{WIDTH}\" height=\"{HEIGHT}\" fill=\"white\"/>\n"
    );
    let mut line = |text: String| {
        out.push_str(&text);
        out.push('\n');
    };
    for bytes in marks(most_bytes) {
        let (at, low, high) = (x(bytes), y(0.0), y(most_ms));
        line(format!("<line x1=\"{at:.1}\" y1=\"{low:.1}\" x2=\"{at:.1}\" y2=\"{high:.1}\" stroke=\"#ddd\"/>"));
        let label = low + 18.0;
        line(format!("<text x=\"{at:.1}\" y=\"{label:.1}\" text-anchor=\"middle\">{} k</text>", bytes / 1000.0));
    }
    for ms in marks(most_ms) {
        let (at, left, right) = (y(ms), x(0.0), x(most_bytes));
        line(format!("<line x1=\"{left:.1}\" y1=\"{at:.1}\" x2=\"{right:.1}\" y2=\"{at:.1}\" stroke=\"#ddd\"/>"));
        let (left, low) = (left - 8.0, at + 4.0);
        line(format!("<text x=\"{left:.1}\" y=\"{low:.1}\" text-anchor=\"end\">{ms} ms</text>"));
    }
    for (side, name, colour) in [(1, "ordinary Rust", "#c2571a"), (0, "ours", "#1a6fc2")] {
        let path: Vec<String> = points
            .iter()
            .map(|(bytes, times)| format!("{:.1},{:.1}", x(*bytes as f64), y(times[side] / 1e6)))
            .collect();
        line(format!("<polyline points=\"{}\" fill=\"none\" stroke=\"{colour}\" stroke-width=\"2\"/>", path.join(" ")));
        for point in &path {
            let (px, py) = point.split_once(',').unwrap_or_default();
            line(format!("<circle cx=\"{px}\" cy=\"{py}\" r=\"4\" fill=\"{colour}\"/>"));
        }
        let (left, low) = (LEFT + 16.0, TOP + 18.0 * (side as f64 + 1.0));
        line(format!("<text x=\"{left}\" y=\"{low}\" fill=\"{colour}\">{name}</text>"));
    }
    line(format!("<text x=\"{}\" y=\"24\" text-anchor=\"middle\">The verdict on a proof in one piece, over its size</text>", WIDTH / 2.0));
    line(format!("<text x=\"{}\" y=\"{}\" text-anchor=\"middle\">bytes of the proof</text>", WIDTH / 2.0, HEIGHT - 14.0));
    out.push_str("</svg>\n");
    out
}
