//! Every method of `Model`, taken.
use dotterelwire::component::kind;
use dotterelwire::{Component, Data, DataType, Edit, Function, Model, Operation, Refusal, Sphere, Torus, Vec3};

type Done = Result<(), Refusal>;

fn ball() -> Sphere {
    Sphere::new(Vec3::origin(), 1.0)
}

#[test]
fn a_new_model_holds_nothing() -> Done {
    let model = Model::new();
    assert_eq!(model.all_components()?, vec![]);
    assert_eq!(model.get_default_output()?, None);
    assert_eq!(model.as_bytes()[0], 1);
    assert!(model.as_bytes()[1..].iter().all(|b| *b == 0));
    Ok(())
}

#[test]
fn adding_answers_the_tag_and_sets_the_default() -> Done {
    let mut model = Model::new();
    assert_eq!(model.add_constant("c", 2.5)?, "c");
    assert_eq!(model.get_default_output()?.as_deref(), Some("c"));
    assert_eq!(model.add_function("s", ball())?, "s");
    assert_eq!(model.get_default_output()?.as_deref(), Some("s"));
    assert_eq!(model.add_operation("o", Operation::Add, Some(&["c", "s"]))?, "o");
    assert_eq!(model.get_default_output()?.as_deref(), Some("o"));
    assert_eq!(model.get_component("c")?, Some(Component::Constant(2.5)));
    assert_eq!(model.get_component("s")?, Some(Component::Function(Function::Sphere(ball()))));
    assert_eq!(model.get_component("o")?, Some(Component::Operation(Operation::Add)));
    assert_eq!(model.get_component("x")?, None);
    Ok(())
}

#[test]
fn add_component_numbers_the_tag_where_it_is_taken() -> Done {
    let mut model = Model::new();
    let torus = Torus::new(Vec3::new(1.0, 2.0, 3.0), 5.0, 1.0);
    assert_eq!(model.add_component("t", torus)?, "t");
    assert_eq!(model.add_component("t", Component::Constant(1.0))?, "t_1");
    assert_eq!(model.add_component("t", Operation::VariableLerp)?, "t_2");
    assert_eq!(model.get_default_output()?.as_deref(), Some("t"));
    assert_eq!(model.get_inputs("t_2")?, Some(vec![None, None, None]));
    assert_eq!(model.get_inputs("t_1")?, None);
    assert_eq!(model.get_component("t")?, Some(torus.into()));
    Ok(())
}

#[test]
fn inputs_are_wired_removed_and_read() -> Done {
    let mut model = Model::new();
    model.add_constant("a", 1.0)?;
    model.add_constant("b", 5.0)?;
    model.add_operation("o", Operation::Subtract, None)?;
    assert_eq!(model.get_inputs("o")?, Some(vec![None, None]));
    model.add_input("o", "a", 0)?;
    model.add_input("o", "b", 1)?;
    assert_eq!(model.get_inputs("o")?, Some(vec![Some("a".to_string()), Some("b".to_string())]));
    assert_eq!(model.evaluate_at("o", 0.0, 0.0, 0.0)?, -4.0);
    model.remove_input("o", 0)?;
    assert_eq!(model.get_inputs("o")?, Some(vec![None, Some("b".to_string())]));
    Ok(())
}

#[test]
fn a_removed_component_leaves_its_list_and_gaps() -> Done {
    let mut model = Model::new();
    model.add_constant("a", 1.0)?;
    model.add_operation("o", Operation::Offset { distance: 1.0 }, Some(&["a"]))?;
    model.add_operation("p", Operation::Offset { distance: 1.0 }, Some(&["o"]))?;
    model.remove_component("o")?;
    assert_eq!(model.get_component("o")?, None);
    assert_eq!(model.get_inputs("o")?, Some(vec![Some("a".to_string())]));
    assert_eq!(model.get_inputs("p")?, Some(vec![None]));
    Ok(())
}

#[test]
fn a_rename_is_followed_by_every_wire_and_the_default() -> Done {
    let mut model = Model::new();
    model.add_constant("a", 1.0)?;
    model.add_operation("o", Operation::Add, Some(&["a", "a"]))?;
    model.add_constant("z", 0.0)?;
    assert_eq!(model.rename_component("a", "new")?, "new");
    assert_eq!(model.get_inputs("o")?, Some(vec![Some("new".to_string()), Some("new".to_string())]));
    assert_eq!(model.rename_component("z", "y")?, "y");
    assert_eq!(model.get_default_output()?.as_deref(), Some("y"));
    assert_eq!(model.evaluate_at("o", 0.0, 0.0, 0.0)?, 2.0);
    Ok(())
}

#[test]
fn parameters_are_set_and_read() -> Done {
    let mut model = Model::new();
    model.add_function("s", ball())?;
    model.add_operation("l", Operation::Lerp { factor: 0.5 }, None)?;
    let centre = Data::Vec3(Vec3::new(1.0, 2.0, 3.0));
    model.set_parameter("s", "Centre", centre)?;
    model.set_parameter("s", "Radius", Data::Value(7.0))?;
    model.set_parameter("l", "Factor", Data::Value(9.0))?;
    assert_eq!(model.read_parameter("s", "Centre")?, Some(centre));
    assert_eq!(model.read_parameter("s", "Radius")?, Some(Data::Value(7.0)));
    assert_eq!(model.read_parameter("l", "Factor")?, Some(Data::Value(1.0)));
    assert_eq!(model.read_parameter("l", "Radius")?, None);
    let moved = Sphere::new(Vec3::new(1.0, 2.0, 3.0), 7.0);
    assert_eq!(model.get_component("s")?, Some(moved.into()));
    Ok(())
}

#[test]
fn the_order_holds_each_reached_tag_once_inputs_ahead() -> Done {
    let mut model = Model::new();
    model.add_constant("a", 3.0)?;
    model.add_operation("b", Operation::Add, Some(&["a", "a"]))?;
    model.add_operation("c", Operation::Multiply, Some(&["b", "a"]))?;
    model.add_constant("d", 0.0)?;
    assert_eq!(model.compile("c")?, ["a", "b", "c"]);
    assert_eq!(model.compile("d")?, ["d"]);
    assert_eq!(model.evaluate_at("c", 0.0, 0.0, 0.0)?, 18.0);
    Ok(())
}

/// The cases P1, P2 and P3, and a NaN's bits.
#[test]
fn numbers_at_a_point() -> Done {
    let mut model = Model::new();
    model.add_function("s", ball())?;
    model.add_function("t", Torus::new(Vec3::origin(), 5.0, 1.0))?;
    model.add_constant("n", -f64::NAN)?;
    assert_eq!(model.evaluate_at("s", 3.0, 4.0, 0.0)?, 4.0);
    assert_eq!(model.evaluate_at("t", 3.0, 0.0, 4.0)?, -1.0);
    assert_eq!(model.evaluate_at("t", 5.0, 1.0, 0.0)?.to_bits(), 0);
    assert_eq!(model.evaluate_at("n", 0.0, 0.0, 0.0)?.to_bits(), 0x7ff8_0000_0000_0000);
    Ok(())
}

#[test]
fn a_list_of_edits_is_run_and_the_form_asked_under_its_newest_tag() -> Done {
    let mut model = Model::new();
    model.add_constant("a", 1.0)?;
    model.add_operation("o", Operation::Offset { distance: 0.5 }, Some(&["a"]))?;
    let ring = Component::from(Torus::new(Vec3::origin(), 5.0, 1.0)).row();
    let edits = [
        Edit::add_operation("u", Operation::Add.row(), Some(&[b"a", b"o"])),
        Edit::add_constant("b", 4.0),
        Edit::add_function("f", Function::from(ball()).row()),
        Edit::add_component("f", ring),
        Edit::add_input("o", "b", 0),
        Edit::remove_input("u", 1),
        Edit::remove_component("f"),
        Edit::rename_component("o", "p"),
        Edit::set_parameter("p", "Distance", Data::Value(1.5)),
        Edit::remove_component("not there"),
    ];
    assert_eq!(model.evaluate_after(&edits, "o", 0.0, 0.0, 0.0)?, 2.5);
    assert_eq!(model.get_inputs("u")?, Some(vec![Some("a".to_string()), None]));
    assert_eq!(model.get_component("f")?, None);
    assert_eq!(model.get_component("f_1")?.map(|c| c.row()), Some(ring));
    assert_eq!(model.evaluate_after(&[], "p", 0.0, 0.0, 0.0)?, 2.5);
    Ok(())
}

#[test]
fn a_list_after_which_the_form_is_refused_changes_nothing() -> Done {
    let mut model = Model::new();
    model.add_constant("a", 1.0)?;
    let before = model.clone();
    let edits = [Edit::add_constant("b", 4.0), Edit::remove_component("a")];
    let refusal = model.evaluate_after(&edits, "a", 0.0, 0.0, 0.0).unwrap_err();
    assert_eq!((refusal.number, refusal.tag_text()), (12, "a".to_string()));
    assert!(model.as_bytes() == before.as_bytes());
    Ok(())
}

#[test]
fn every_kind_goes_in_and_comes_out_the_same() -> Done {
    let mut model = Model::new();
    let remap = Operation::Remap { from_min: 1.0, from_max: 2.0, to_min: 3.0, to_max: 4.0 };
    let operations = [
        Operation::Multiply,
        Operation::Add,
        Operation::Subtract,
        Operation::Divide,
        Operation::Lerp { factor: 0.25 },
        Operation::VariableLerp,
        remap,
        Operation::BooleanUnion,
        Operation::BooleanIntersection,
        Operation::BooleanDifference,
        Operation::Offset { distance: 1.0 },
        Operation::Thickness { t: 2.0 },
    ];
    let mut components = vec![Component::Constant(1.0), ball().into()];
    components.push(Torus::new(Vec3::new(1.0, 2.0, 3.0), 4.0, 5.0).into());
    components.extend(operations.map(Component::from));
    assert_eq!(components.len() as u64, kind::COUNT);
    for (number, component) in components.iter().enumerate() {
        assert_eq!(component.row().kind, number as u64);
        assert_eq!(Component::of(&component.row()), Some(*component));
        model.add_component("same", *component)?;
    }
    let held: Vec<Component> = model.all_components()?.into_iter().map(|(_, c)| c).collect();
    assert_eq!(held, components);
    Ok(())
}

#[test]
fn a_screen_learns_names_inputs_and_parameters() -> Done {
    let torus: Component = Torus::new(Vec3::origin(), 5.0, 1.0).into();
    assert_eq!(torus.type_name()?, "Torus");
    assert_eq!(torus.input_count()?, 0);
    let parameters = torus.parameters()?;
    let named: Vec<_> = parameters.iter().map(|p| (p.name.as_str(), p.data_type)).collect();
    let wanted = [("Centre", DataType::Vec3), ("Radius", DataType::Value), ("Thickness", DataType::Value)];
    assert_eq!(named, wanted);
    assert_eq!(Component::from(Operation::VariableLerp).input_count()?, 3);
    assert_eq!(Component::from(Operation::BooleanDifference).type_name()?, "BooleanDifference");
    assert_eq!(Component::from(Operation::Add).parameters()?, vec![]);
    Ok(())
}

#[test]
fn a_screen_shows_every_component() -> Done {
    let mut model = Model::new();
    model.add_operation("gap", Operation::Offset { distance: 0.5 }, None)?;
    model.add_function("ball", Sphere::new(Vec3::new(1.0, 0.0, -2.0), 3.5))?;
    model.add_operation("wired", Operation::Add, Some(&["ball", "gap"]))?;
    let shown = "Component: ball\nType: Sphere\n- Centre: (1, 0, -2)\n- Radius: 3.5\n\n\
        Component: gap\nType: Offset\n- Distance: 0.5\n- input 0: not wired\n\n\
        Component: wired\nType: Add\n- input 0: ball\n- input 1: gap\n\n";
    assert_eq!(model.to_string(), shown);
    Ok(())
}

#[test]
fn models_are_the_same_at_any_positions() -> Done {
    let (mut one, mut other) = (Model::new(), Model::new());
    one.add_constant("a", f64::NAN)?;
    one.add_constant("b", 2.0)?;
    other.add_constant("b", 2.0)?;
    other.add_constant("a", f64::NAN)?;
    assert!(!one.is_same(&other)?); // the default is another
    one.add_constant("c", 3.0)?;
    other.add_constant("c", 3.0)?;
    assert!(one.is_same(&other)? && one.as_bytes() != other.as_bytes());
    other.set_parameter("b", "", Data::Value(-2.0))?;
    assert!(!one.is_same(&other)?);
    Ok(())
}

#[test]
fn bytes_are_kept_and_taken_back() -> Done {
    let mut model = Model::new();
    model.add_function("s", ball())?;
    let mut kept = *model.as_bytes();
    assert!(Model::from_bytes(&kept)?.as_bytes() == model.as_bytes());
    kept[0] = 2;
    assert_eq!(Model::from_bytes(&kept).err().map(|refusal| refusal.number), Some(7));
    Ok(())
}

#[test]
fn distances_and_vectors_without_a_model() {
    assert_eq!(ball().eval(3.0, 4.0, 0.0), 4.0);
    assert_eq!(Torus::new(Vec3::origin(), 5.0, 1.0).eval(3.0, 0.0, 4.0), -1.0);
    assert_eq!(dotterelwire::ffi::root(2.0), 2f64.sqrt());
    let (a, b) = (Vec3::new(1.0, 2.0, 3.0), Vec3::new(4.0, 5.0, 6.0));
    assert_eq!((a + b, b - a), (Vec3::new(5.0, 7.0, 9.0), Vec3::new(3.0, 3.0, 3.0)));
    assert_eq!((a.dot(&b), a.scale(2.0)), (32.0, Vec3::new(2.0, 4.0, 6.0)));
}
