//! JSON Schema, as much of it as docs/output.schema.json uses. A word that is not known here is an error, so that none is
//! passed over.

use serde_json::Value;

/// Words that ask nothing of a value.
const NO_RULES: [&str; 4] = ["$schema", "$defs", "title", "description"];

/// A schema.
pub struct Schema(Value);

impl Schema {
    pub fn of(text: &str) -> Schema {
        Schema(serde_json::from_str(text).unwrap())
    }

    /// Says what is wrong with a value, if anything is.
    pub fn check(&self, value: &Value) -> Result<(), String> {
        self.ask(&self.0, value)
    }

    /// Asks a part of the schema.
    fn ask(&self, part: &Value, value: &Value) -> Result<(), String> {
        for (word, rule) in part.as_object().expect("an object") {
            if !NO_RULES.contains(&word.as_str()) {
                self.ask_word(word, rule, part, value)?;
            }
        }
        Ok(())
    }

    fn ask_word(
        &self,
        word: &str,
        rule: &Value,
        part: &Value,
        value: &Value,
    ) -> Result<(), String> {
        let holds = match word {
            "$ref" => return self.ask(self.named(rule), value),
            "oneOf" => return self.ask_one_of(rule, value),
            "items" => return elements(value).try_for_each(|element| self.ask(rule, element)),
            "properties" => return self.ask_properties(rule, value),
            "additionalProperties" => return self.ask_others(rule, &part["properties"], value),
            "type" => has_type(rule, value),
            "const" => value == rule,
            "enum" => elements(rule).any(|one| one == value),
            "required" => elements(rule).all(|name| value.get(name.as_str().unwrap()).is_some()),
            "minimum" => value
                .as_f64()
                .is_none_or(|number| number >= rule.as_f64().unwrap()),
            "maximum" => value
                .as_f64()
                .is_none_or(|number| number <= rule.as_f64().unwrap()),
            _ => panic!("the schema has the word {word}, which this test does not know"),
        };
        match holds {
            true => Ok(()),
            false => Err(format!("{word} {rule} is not kept by {value}")),
        }
    }

    /// The part that a reference names.
    fn named(&self, reference: &Value) -> &Value {
        let path = reference.as_str().unwrap().strip_prefix('#').unwrap();
        self.0.pointer(path).expect("a part of this name")
    }

    fn ask_one_of(&self, parts: &Value, value: &Value) -> Result<(), String> {
        let answers: Vec<_> = elements(parts)
            .map(|part| (part, self.ask(part, value)))
            .collect();
        match answers.iter().filter(|(_, answer)| answer.is_ok()).count() {
            1 => Ok(()),
            holds => {
                let told = answers
                    .iter()
                    .map(|(part, answer)| format!("\n  {part}: {answer:?}"));
                let told: String = told.collect();
                Err(format!("{holds} of these, not 1, allow {value}:{told}"))
            }
        }
    }

    fn ask_properties(&self, rules: &Value, value: &Value) -> Result<(), String> {
        let mut rules = rules.as_object().unwrap().iter();
        rules.try_for_each(|(name, rule)| match value.get(name) {
            Some(property) => self.ask(rule, property),
            None => Ok(()),
        })
    }

    /// Asks the rule for properties that have none of their own: a schema, or false.
    fn ask_others(&self, rule: &Value, named: &Value, value: &Value) -> Result<(), String> {
        for (name, property) in value.as_object().into_iter().flatten() {
            match rule {
                _ if named.get(name).is_some() => {}
                Value::Bool(false) => return Err(format!("{name} is not allowed in {value}")),
                rule => self.ask(rule, property)?,
            }
        }
        Ok(())
    }
}

fn elements(list: &Value) -> impl Iterator<Item = &Value> {
    list.as_array().into_iter().flatten()
}

fn has_type(name: &Value, value: &Value) -> bool {
    match name.as_str().unwrap() {
        "null" => value.is_null(),
        "boolean" => value.is_boolean(),
        "integer" => value.is_i64() || value.is_u64(),
        "number" => value.is_number(),
        "string" => value.is_string(),
        "array" => value.is_array(),
        "object" => value.is_object(),
        name => panic!("no type is called {name}"),
    }
}
