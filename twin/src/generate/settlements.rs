//! Blocks about years' minutes, gaps, growth, payments and reconciliation.

use super::Generator;
use crate::script::Call;

impl Generator {
    pub fn settlement_work(&mut self) {
        for _ in 0..20 {
            let (earlier, later) = self.random.periods();
            let n = self.random.hundredths();
            let amount = self.random.settled();
            let (year, regime_end) = (self.random.year_number(), self.random.minute());
            self.call(Call::Minutes { year, regime_end });
            self.call(Call::Gap { earlier, later });
            self.call(Call::Growth { n });
            self.call(Call::Pay { amount, n });
            self.call(Call::Settle { adjustment: amount, earlier, later });
            let (final_amount, provisional) = self.two_amounts();
            self.call(Call::Reconcile { final_amount, provisional, earlier, later });
        }
    }

    /// Final and provisional, any numbers of 64 bits; their difference is
    /// often near 10^10.
    pub fn two_amounts(&mut self) -> (i64, i64) {
        let random = &mut self.random;
        if random.one_in(5) {
            return (random.edge_i64(), random.edge_i64());
        }
        let difference = random.settled();
        let provisional = match random.below(4) {
            0 => random.edge_i64(),
            1 => random.next() as i64,
            _ => random.settled(),
        };
        (provisional.wrapping_add(difference), provisional)
    }
}
