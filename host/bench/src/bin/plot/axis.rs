//! An axis: where a number stands on it, and its ticks.

pub struct Axis {
    pub label: &'static str,
    pub ticks: Vec<f64>,
    is_log: bool,
}

impl Axis {
    /// Ticks a step apart, from the first until one isn't below `to`.
    pub fn linear(label: &'static str, from: f64, to: f64, step: f64) -> Axis {
        let mut ticks = vec![from, from + step];
        while ticks[ticks.len() - 1] < to {
            ticks.push(from + step * ticks.len() as f64);
        }
        Axis {
            label,
            ticks,
            is_log: false,
        }
    }

    /// Each tick is the one before times a factor.
    pub fn log(label: &'static str, from: f64, to: f64, factor: f64) -> Axis {
        let mut ticks = vec![from, from * factor];
        while ticks[ticks.len() - 1] < to {
            ticks.push(ticks[ticks.len() - 1] * factor);
        }
        Axis {
            label,
            ticks,
            is_log: true,
        }
    }

    /// 0 at the first tick, 1 at the last.
    pub fn place(&self, number: f64) -> f64 {
        let scaled = |number: f64| if self.is_log { number.ln() } else { number };
        let [first, last] = [self.ticks[0], self.ticks[self.ticks.len() - 1]].map(scaled);
        (scaled(number) - first) / (last - first)
    }
}

#[cfg(test)]
mod tests {
    use super::*;

    #[test]
    fn a_linear_axis() {
        let axis = Axis::linear("", 0.0, 934.0, 200.0);
        assert_eq!(axis.ticks, [0.0, 200.0, 400.0, 600.0, 800.0, 1000.0]);
        assert_eq!(
            [0.0, 250.0, 1000.0].map(|y| axis.place(y)),
            [0.0, 0.25, 1.0]
        );
    }

    #[test]
    fn a_log_axis() {
        let axis = Axis::log("", 1.0, 16.0, 2.0);
        assert_eq!(axis.ticks, [1.0, 2.0, 4.0, 8.0, 16.0]);
        let places = [1.0, 2.0, 4.0, 16.0].map(|x| (axis.place(x) * 4.0).round());
        assert_eq!(places, [0.0, 1.0, 2.0, 4.0]);
    }
}
