//! Numbers, paths, folds and final polynomials, and two faults at one byte.

use super::subject::{first_proof, Opening, Proof, ORDINAL, SMALL};
use super::Corpus;
use crate::domain::{point, Coset};
use crate::field::{add, pow, sub, P};
use crate::files::same_modulo_p;
use crate::job;
use crate::layout::Kind;
use crate::params::Params;
use crate::proof::{build_altered, Forger};

impl Corpus {
    pub fn numbers(&mut self) {
        let not_numbers = [("p", P), ("p_and_1", P + 1), ("all_ones", u32::MAX)];
        let proof = Proof::random(SMALL, 13);
        for (index, item) in proof.items(Kind::Coefficient).into_iter().enumerate() {
            for (name, number) in not_numbers {
                self.add(
                    22,
                    format!("coefficient_{index}_{name}"),
                    format!("final coefficient {index} is {number}, not below p"),
                    proof.with_number(item, number),
                );
            }
            let largest = Proof::altered(SMALL, 13, |layer, numbers| {
                if layer == SMALL.k {
                    numbers[index] = P - 1;
                }
            });
            self.add(
                25,
                format!("coefficient_{index}_largest"),
                format!("final coefficient {index} is p - 1: a number, but the wrong one"),
                largest.job(),
            );
        }
        for opening in proof.openings() {
            let Opening { query, layer, .. } = opening;
            for (index, item) in opening.values.into_iter().enumerate() {
                let ordinal = ORDINAL[index];
                let name = format!("value_{query}_{layer}_{ordinal}");
                let what = format!("query {query}, layer {layer}: the {ordinal} value is");
                for (kind, number) in not_numbers {
                    self.add(
                        22,
                        format!("{name}_{kind}"),
                        format!("{what} {number}, not below p"),
                        proof.with_number(item, number),
                    );
                }
                let is_folded = layer > 0 && opening.is_second == (index == 1);
                let refusal = if is_folded { 24 } else { 23 };
                self.add(
                    refusal,
                    format!("{name}_largest"),
                    format!("{what} p - 1: a number, but the wrong one"),
                    proof.with_number(item, P - 1),
                );
            }
        }

        // Two files, one meaning: p stands for 0, with right paths.
        for (layer, what) in [
            (0, "layer 0's values"),
            (1, "layer 1's values"),
            (SMALL.k, "the final coefficients"),
        ] {
            let context = [4; 32];
            let bytes = build_altered(SMALL, &context, &[], |altered, numbers| {
                if altered == layer {
                    numbers.fill(same_modulo_p(0));
                }
            });
            self.add(
                22,
                format!("p_for_zero_{layer}"),
                format!("the zero polynomial with 01 00 00 c0 for 0 in {what}, and committed to"),
                job::job(SMALL, &context, &bytes),
            );
        }
    }

    pub fn paths(&mut self) {
        let proof = Proof::random(SMALL, 14);
        let openings = proof.openings();
        for opening in &openings {
            let Opening { query, layer, .. } = opening;
            let what = format!("{query}_{layer}");
            let where_ = format!("query {query}, layer {layer}");
            for (height, sibling) in opening.siblings.iter().enumerate() {
                for (end, place, bit) in [("first", sibling.start, 0), ("last", sibling.end - 1, 7)]
                {
                    self.add(
                        23,
                        format!("sibling_{what}_{height}_{end}_bit"),
                        format!("{where_}: the {end} bit of the sibling at height {height}"),
                        proof.with_bit_flipped(place, bit),
                    );
                }
            }
            for (index, item) in opening.values.iter().enumerate() {
                let is_folded = *layer > 0 && opening.is_second == (index == 1);
                let ordinal = ORDINAL[index];
                self.add(
                    if is_folded { 24 } else { 23 },
                    format!("value_{what}_{ordinal}_bit"),
                    match is_folded {
                        true => format!("{where_}: a bit of the {ordinal} value, the folded one"),
                        false => {
                            format!("{where_}: a bit of the {ordinal} value, which no fold names")
                        }
                    },
                    proof.with_bit_flipped(item.start, 0),
                );
            }
            let bottom = opening.siblings[0];
            let top = opening.siblings[opening.siblings.len() - 1];
            self.add(
                23,
                format!("siblings_{what}_swapped"),
                format!("{where_}: the lowest and the highest sibling change places"),
                proof.changed(|bytes| {
                    let (low, high) = bytes.split_at_mut(top.start);
                    low[bottom.range()].swap_with_slice(&mut high[..32]);
                }),
            );
        }
        for (layer, root) in proof.items(Kind::Root).into_iter().enumerate() {
            self.add(
                23,
                format!("root_{layer}_bit"),
                format!("a bit of layer {layer}'s root: what is drawn after it changes too"),
                proof.with_bit_flipped(root.end - 1, 7),
            );
        }
        let (first, second) = (openings[0].values[0].start, openings[2].values[0].start);
        self.add(
            23,
            "queries_swapped",
            "the openings of the two queries change places",
            proof.changed(|bytes| bytes[first..].rotate_left(second - first)),
        );
        self.add(
            23,
            "query_repeated",
            "the first query's openings stand for the second's too",
            proof.changed(|bytes| bytes.copy_within(first..second, second)),
        );
        let zeros = vec![0; openings[0].siblings.len() * 32];
        self.add(
            23,
            "path_of_zeros",
            "every sibling of the first path is zero",
            proof.changed(|bytes| {
                bytes[openings[0].siblings[0].start..][..zeros.len()].copy_from_slice(&zeros)
            }),
        );

        let elsewhere = |leaf: u32| {
            move |seed| {
                let forger = Forger {
                    leaf: Some(leaf),
                    ..Forger::default()
                };
                Proof::forged(&forger, SMALL, seed, |_, _| {})
            }
        };
        let drawn_otherwise = |leaf: u32| move |proof: &Proof| proof.openings()[0].leaf != leaf;
        self.add(
            23,
            "leaf_not_drawn",
            "every query opens leaf 0 with its own path, whichever is drawn",
            first_proof(elsewhere(0), drawn_otherwise(0)).job(),
        );
        self.add(
            23,
            "neighbour_opened",
            "every query opens leaf 6 with its own path where leaf 7 is drawn",
            first_proof(elsewhere(6), |proof| proof.openings()[0].leaf == 7).job(),
        );
    }

    /// Wrong values with right paths.
    pub fn folds(&mut self) {
        let params = Params::new(6, 1, 3, 2);
        for wrong in 1..params.k {
            let proof = Proof::altered(params, 15, |layer, values| {
                if layer == wrong {
                    values.iter_mut().for_each(|value| *value = add(*value, 1));
                }
            });
            self.add(
                24,
                format!("layer_{wrong}_not_folded"),
                format!("every value of layer {wrong} is one too large and committed to"),
                proof.job(),
            );
        }
        for wrong in 1..params.k {
            for half in [0, 1] {
                for named in [0, 1] {
                    let make = |seed| {
                        Proof::altered(params, seed, |layer, values| {
                            if layer == wrong {
                                let middle = values.len() / 2;
                                let part = &mut values[half * middle..][..middle];
                                part.iter_mut().for_each(|value| *value = add(*value, 1));
                            }
                        })
                    };
                    let proof = first_proof(make, |proof| {
                        proof.openings()[wrong as usize].is_second == (named == 1)
                    });
                    // Where the wrong half is not named, the next fold fails.
                    let is_last = wrong + 1 == params.k;
                    self.add(
                        if half != named && is_last { 25 } else { 24 },
                        format!("layer_{wrong}_{}_wrong_{}_named", ORDINAL[half], ORDINAL[named]),
                        format!(
                            "layer {wrong}'s {} values are wrong and committed to; the fold must be the {} value",
                            ORDINAL[half], ORDINAL[named]
                        ),
                        proof.job(),
                    );
                }
            }
            let swapped = |seed| {
                Proof::altered(params, seed, |layer, values| {
                    if layer == wrong {
                        values.rotate_left(values.len() / 2);
                    }
                })
            };
            for named in [0, 1] {
                let proof = first_proof(swapped, |proof| {
                    proof.openings()[wrong as usize].is_second == (named == 1)
                });
                self.add(
                    24,
                    format!("layer_{wrong}_swapped_{}_named", ORDINAL[named]),
                    format!(
                        "layer {wrong}'s pairs are swapped and committed to: the fold must be the {} value and is the other",
                        ORDINAL[named]
                    ),
                    proof.job(),
                );
            }
        }

        // One wrong pair, which only the second query meets.
        let one_leaf = |seed| {
            Proof::altered(params, seed, |layer, values| {
                if layer == 1 {
                    let middle = values.len() / 2;
                    values[3] = add(values[3], 1);
                    values[3 + middle] = add(values[3 + middle], 1);
                }
            })
        };
        let proof = first_proof(one_leaf, |proof| {
            let openings = proof.openings();
            openings[1].leaf != 3 && openings[params.k as usize + 1].leaf == 3
        });
        self.add(
            24,
            "second_query_not_folded",
            "one wrong pair of layer 1, committed to: only the second query opens it",
            proof.job(),
        );
        let forger = Forger {
            challenges_first: true,
            ..Forger::default()
        };
        self.add(
            24,
            "challenges_before_roots",
            "every challenge is drawn before its root is absorbed",
            Proof::forged(&forger, params, 16, |_, _| {}).job(),
        );
        let forger = Forger {
            narrow_challenges: true,
            ..Forger::default()
        };
        self.add(
            24,
            "challenges_from_4_bytes",
            "every challenge is drawn from 4 bytes: good by the rule before request 2026-01",
            Proof::forged(&forger, params, 16, |_, _| {}).job(),
        );
    }

    /// The paths and folds are right, and the chains end elsewhere.
    pub fn final_polynomials(&mut self) {
        let Params { n, b, k, .. } = SMALL;
        for index in 0..SMALL.final_count() {
            let proof = Proof::altered(SMALL, 17, |layer, numbers| {
                if layer == k {
                    numbers[index] = add(numbers[index], 1);
                }
            });
            self.add(
                25,
                format!("final_coefficient_{index}"),
                format!("final coefficient {index} is one too large before the queries are drawn"),
                proof.job(),
            );
        }
        let zero = Proof::altered(SMALL, 18, |layer, numbers| {
            if layer == k {
                numbers.fill(0);
            }
        });
        self.add(25, "final_zero", "the final polynomial is zero", zero.job());

        let degree = 1u32 << (n - b);
        let too_high = Proof::altered(SMALL, 19, |layer, values| {
            if layer < k {
                let coset = Coset::of_layer(n, layer);
                for (index, value) in values.iter_mut().enumerate() {
                    let power = pow(coset.point(index as u32), degree >> layer);
                    *value = add(*value, power);
                }
            }
        });
        self.add(
            25,
            "degree_too_high",
            "one power more than allowed: all is consistent but the final polynomial, which has no room for it",
            too_high.job(),
        );

        // A final polynomial that is right at one point: the difference is
        // the polynomial X minus that point.
        let root = 2;
        let one_point = |seed| {
            Proof::altered(SMALL, seed, |layer, numbers| {
                if layer == k {
                    numbers[0] = sub(numbers[0], point(n, k, root));
                    numbers[1] = add(numbers[1], 1);
                }
            })
        };
        let last =
            |proof: &Proof, query: usize| proof.openings()[(query + 1) * k as usize - 1].leaf;
        let proof = first_proof(one_point, |proof| {
            last(proof, 0) == root && last(proof, 1) != root
        });
        self.add(
            25,
            "second_query_misses",
            "a wrong final polynomial that is right where the first query ends",
            proof.job(),
        );
        let proof = first_proof(one_point, |proof| {
            last(proof, 0) == root && last(proof, 1) == root
        });
        self.add(
            1,
            "both_queries_hit",
            "a wrong final polynomial that is right where both queries end: no query sees it",
            proof.job(),
        );

        let one_fold = Params::new(4, 2, 1, 2);
        let wrong_layer = Proof::altered(one_fold, 20, |layer, values| {
            if layer == 0 {
                values.iter_mut().for_each(|value| *value = add(*value, 1));
            }
        });
        self.add(
            25,
            "only_layer_wrong",
            "one fold only: a wrong layer, committed to, shows at the final polynomial",
            wrong_layer.job(),
        );
    }

    /// Two faults at one byte, or one before the other.
    pub fn precedence(&mut self) {
        let small = |seed| Proof::random(SMALL, seed);
        for named in [0, 1] {
            let proof = first_proof(small, |proof| proof.openings()[1].is_second == (named == 1));
            let [first, second] = proof.openings()[1].values;
            let wrong_and_not_below = |bytes: &mut Vec<u8>| {
                bytes[first.start] ^= 1;
                bytes[second.range()].fill(0xff);
            };
            self.add(
                22,
                format!("not_below_p_before_fold_{}", ORDINAL[named]),
                format!(
                    "at the second value's last byte it is not below p, and the {} value is not the folded one",
                    ORDINAL[named]
                ),
                proof.changed(wrong_and_not_below),
            );
            self.add(
                24,
                format!("fold_before_path_{}", ORDINAL[named]),
                "the value is not the folded one, and so the path misses its root later",
                proof.changed(|bytes| bytes[[first, second][named].start] ^= 1),
            );
        }
        // Reduced modulo p, the second value would be the folded one.
        let proof = first_proof(small, |proof| {
            let opening = &proof.openings()[1];
            let value = proof.number(opening.values[1]);
            opening.is_second && same_modulo_p(value) != value
        });
        let second = proof.openings()[1].values[1];
        self.add(
            22,
            "folded_value_not_reduced",
            "the folded value with p added: the same number modulo p, not below p",
            proof.with_number(second, same_modulo_p(proof.number(second))),
        );

        let wrong_final = Proof::altered(SMALL, 21, |layer, numbers| {
            if layer == SMALL.k {
                numbers[0] = add(numbers[0], 1);
            }
        });
        let last = wrong_final.params.opening_offset(1, 0) - 1;
        self.add(
            25,
            "final_missed",
            "the path holds, and the chain misses the final polynomial",
            wrong_final.job(),
        );
        self.add(
            23,
            "path_before_final",
            "the same byte: the path misses its root, and the chain the final polynomial",
            wrong_final.with_bit_flipped(last, 0),
        );
        let proof = small(22);
        let count = proof.items(Kind::Count)[1];
        self.add(
            21,
            "parameters_before_count",
            "section 1 and section 2's count are wrong: the earlier byte decides",
            proof.changed(|bytes| {
                bytes[2] ^= 1;
                bytes[count.start] ^= 1;
            }),
        );
        self.add(
            23,
            "fault_before_the_end",
            "a wrong path in a file with a byte too many",
            proof.changed(|bytes| {
                let last = bytes.len() - 1;
                bytes[last] ^= 1;
                bytes.push(0);
            }),
        );
        self.add(
            23,
            "fault_in_a_short_file",
            "a wrong first path in a file cut after it",
            proof.changed(|bytes| {
                let end = SMALL.opening_offset(0, 1);
                bytes[end - 1] ^= 1;
                bytes.truncate(end + 1);
            }),
        );
    }
}
