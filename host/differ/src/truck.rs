//! Document 01's "Checked on the truck", asked of the reference.
use crate::model::Model;
use crate::reference::answer;
use crate::words::{bits_word, tag_word};

/// The last answer to some lines.
fn last(lines: &[String]) -> String {
    let mut m = Model::new("");
    lines.iter().map(|l| answer(&mut m, l)).last().unwrap_or_default()
}

fn numbers(n: &[f64]) -> String {
    n.iter().map(|&x| bits_word(x)).collect::<Vec<_>>().join(" ")
}

/// The number of one component on constants, at a point.
fn number(kind: &str, n: &[f64], inputs: &[f64], point: [f64; 3]) -> String {
    let tags: Vec<String> = (0..inputs.len()).map(|i| tag_word(&[b'a' + i as u8])).collect();
    let mut lines: Vec<String> =
        tags.iter().zip(inputs).map(|(t, &x)| format!("add_constant {t} {}", bits_word(x))).collect();
    let component = [kind.to_string(), numbers(n)].join(" ");
    lines.push(format!("add_component 7a {}", component.trim_end()));
    lines.extend(tags.iter().enumerate().map(|(i, t)| format!("add_input 7a {t} {i}")));
    lines.push(format!("evaluate_at 7a {}", numbers(&point)));
    last(&lines)
}

fn ok(x: f64) -> String {
    format!("ok {}", bits_word(x))
}

#[test]
fn numbers_on_the_truck() {
    let here = [0.0; 3];
    assert_eq!(number("sphere", &[0.0, 0.0, 0.0, 1.0], &[], [3.0, 4.0, 0.0]), ok(4.0));
    assert_eq!(number("torus", &[0.0, 0.0, 0.0, 5.0, 1.0], &[], [3.0, 0.0, 4.0]), ok(-1.0));
    assert_eq!(number("torus", &[0.0, 0.0, 0.0, 5.0, 1.0], &[], [5.0, 1.0, 0.0]), ok(0.0));
    assert_eq!(number("BooleanDifference", &[], &[1.0, -2.0], here), ok(2.0));
    assert_eq!(number("BooleanDifference", &[], &[-2.0, 1.0], here), ok(-1.0));
    assert_eq!(number("Thickness", &[2.0], &[-3.0], here), ok(2.0));
    assert_eq!(number("Lerp", &[0.25], &[2.0, 6.0], here), ok(3.0));
    assert_eq!(number("Remap", &[0.0, 10.0, 0.0, 1.0], &[5.0], here), ok(0.5));
    assert_eq!(number("BooleanUnion", &[], &[f64::NAN, 7.0], here), ok(7.0));
}

#[test]
fn orders_on_the_truck() {
    let itself = ["add_operation 61 Add inputs 2 61 61".to_string(), "compile 61".to_string()];
    assert_eq!(last(&itself), "refused 14 61 0");
    let three = format!("add_constant 62 {}", bits_word(3.0));
    let twice = "add_operation 61 Add inputs 2 62 62".to_string();
    assert_eq!(last(&[three.clone(), twice.clone(), "compile 61".to_string()]), "ok 2 62 61");
    assert_eq!(last(&[three, twice, format!("evaluate_at 61 {}", numbers(&[0.0; 3]))]), ok(6.0));
}

#[test]
fn sizes_on_the_truck() {
    let constant = |t: &[u8]| format!("add_constant {} {}", tag_word(t), bits_word(1.0));
    let many: Vec<String> = (0..65u8).map(|i| constant(&[i])).collect();
    assert_eq!(last(&many[..64]), "ok 3f");
    assert_eq!(last(&many), "refused 15 . 0");
    assert_eq!(last(&[constant(&[b'x'; 33])]), "refused 1 . 0");
    let again = |n: usize| [constant(&vec![b'x'; n]), format!("add_component {} Add", tag_word(&vec![b'x'; n]))];
    assert!(last(&again(30)).starts_with("ok "));
    assert!(last(&again(31)).starts_with("refused 17 "));
    let union = "add_operation 61 BooleanUnion none".to_string();
    let source = constant(b"b");
    assert_eq!(last(&[union.clone(), source.clone(), "add_input 61 62 1".to_string()]), "ok");
    assert_eq!(last(&[union, source, "add_input 61 62 2".to_string()]), "refused 3 61 2");
}

#[test]
fn nearness_on_the_truck() {
    let from_max = |from_min: f64| {
        let remap = format!("add_operation 61 Remap {} none", numbers(&[from_min, 1.0, 0.0, 1.0]));
        last(&[remap, format!("set_parameter 61 46726f6d4d6178 value {}", bits_word(0.0))])
    };
    assert_eq!(from_max(f64::EPSILON), "ok");
    assert_eq!(from_max(f64::EPSILON / 2.0), "refused 5 61 0");
}
