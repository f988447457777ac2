#include "object.hpp"

#include <utility>

#include "json.hpp"
#include "sha256.hpp"
#include "types.hpp"

namespace command::object {

namespace {

using tikomuci::Bytes;
using tikomuci::Sheet;

// Each object begins so: of which file it is, and the status that it alone would give.
Json begun(Sink &out, std::string_view name, Status status) {
    Json json(out);
    json.open('{').key("file").text(name).key("status").number(static_cast<int>(status));
    return json;
}

Json accepted(Sink &out, std::string_view name) {
    Json json = begun(out, name, Status::Accepted);
    json.key("accepted").truth(true);
    return json;
}

void put_refusal(Json &json, tikomuci::Refusal refusal) {
    json.key("refusal").number(number_of(refusal)).key("refusal_name").text(tikomuci::refusal_name(refusal));
}

Json refused(Sink &out, std::string_view name, tikomuci::Outcome outcome) {
    Json json = begun(out, name, Status::Refused);
    put_refusal(json.key("accepted").truth(false), outcome.refusal);
    json.key("stage").number(number_of(outcome.stage)).key("stage_name").text(tikomuci::stage_name(outcome.stage));
    return json;
}

void end(Sink &out, Json &json) {
    json.close('}');
    out << '\n';
}

// The fields of a type, by its kind.
struct Fields {
    Json &json;

    void operator()(const tikomuci::Scalar &) const {}
    void operator()(const tikomuci::Pointer &t) const {
        flags(t.flags).key("element").number(t.element).key("attribute").number(t.attribute);
    }
    void operator()(const tikomuci::Tile &t) const {
        json.key("element").number(t.element).key("shape").numbers(t.shape);
    }
    void operator()(const tikomuci::TensorView &t) const {
        flags(t.flags).key("element").number(t.element).key("shape").numbers(t.shape);
        json.key("strides").numbers(t.strides).key("attribute").number(t.attribute);
    }
    void operator()(const tikomuci::PartitionView &t) const {
        flags(t.flags).key("shape").numbers(t.shape).key("view").number(t.view);
        json.key("map").numbers(t.map).key("padding").number(t.padding);
    }
    void operator()(const tikomuci::GatherScatterView &t) const {
        flags(t.flags).key("shape").numbers(t.shape).key("view").number(t.view);
        json.key("sparse").number(t.sparse).key("padding").number(t.padding);
    }
    void operator()(const tikomuci::StridedView &t) const {
        flags(t.flags).key("shape").numbers(t.shape).key("strides").numbers(t.strides);
        json.key("view").number(t.view).key("map").numbers(t.map).key("padding").number(t.padding);
    }
    void operator()(const tikomuci::FuncType &t) const {
        json.key("inputs").numbers(t.inputs).key("results").numbers(t.results);
    }

    Json &flags(std::uint64_t value) const { return json.key("flags").number(value); }
};

void put_sum(Json &json, Bytes bytes) { json.key("length").number(bytes.size()).key("sha256").hex(sha256(bytes)); }

void put_row(Json &json, const tikomuci::Type &row, std::string_view text) {
    json.open('{').key("kind").text(tikomuci::type_name(row.tag));
    std::visit(Fields{json}, row.kind);
    json.key("text").text(text).close('}');
}

void put_row(Json &json, const tikomuci::Global &row) {
    json.open('{').key("name").number(row.name).key("type").number(row.type);
    json.key("constant").number(row.constant).key("alignment").number(row.alignment);
    json.key("visibility").number(row.visibility).key("is_constant").truth(row.is_constant).close('}');
}

void put_row(Json &json, const tikomuci::Function &row) {
    json.open('{').key("name").number(row.name).key("signature").number(row.signature);
    json.key("flags").number(row.flags).key("location").number(row.location).key("body").open('{');
    put_sum(json, row.body);
    json.close('}').close('}');
}

void put_row(Json &json, const tikomuci::Attribute &row) {
    json.open('{').key("kind").text(tikomuci::debug_name(row.tag)).key("fields").numbers(row.fields).close('}');
}

void put_row(Json &json, const tikomuci::Words &ids) { json.numbers(ids); }

void put_constant(Json &json, Bytes constant, std::uint64_t at) {
    json.open('{').key("offset").number(at);
    put_sum(json, constant);
    json.close('}');
}

template <typename Table, typename Put>
void put_table(Json &json, std::string_view name, const Table &table, Put put) {
    json.key(name).open('[');
    for (const auto &row : table) {
        put(row);
    }
    json.close(']');
}

void put_constants(Json &json, const Sheet &sheet, std::uint64_t constants_at) {
    put_table(json, "constants", sheet.constants(), [&](Bytes constant) {
        put_constant(json, constant, std::exchange(constants_at, constants_at + constant.size()));
    });
}

void put_types(Json &json, const Sheet &sheet) {
    TypeTexts texts(sheet);
    std::uint64_t number = 0;
    put_table(json, "types", sheet.types(),
              [&](const tikomuci::Type &type) { put_row(json, type, texts.text(number++)); });
}

void put_tables(Json &json, const Sheet &sheet, std::uint64_t constants_at) {
    const auto put = [&](const auto &row) { put_row(json, row); };
    json.key("producer").number(sheet.producer());
    put_table(json, "strings", sheet.strings(), [&](Bytes string) { json.text(string); });
    put_types(json, sheet);
    put_constants(json, sheet, constants_at);
    put_table(json, "globals", sheet.globals(), put);
    put_table(json, "functions", sheet.functions(), put);
    put_table(json, "attributes", sheet.attributes(), put);
    put_table(json, "lists", sheet.lists(), put);
}

void put_version(Json &json, const std::optional<tikomuci::Version> &version) {
    json.key("version");
    if (!version) {
        json.null();
        return;
    }
    json.open('{').key("major").number(unsigned{version->major}).key("minor").number(unsigned{version->minor});
    json.key("tag").number(version->tag).close('}');
}

// A section id by its name; null if it is not known.
void put_name(Json &json, std::uint64_t id) {
    const std::string_view name = section_name(id);
    json.key("name");
    name.empty() ? json.null() : json.text(name);
}

void put_broken(Json &json, const Walk &walk) {
    const Section &begun = walk.begun();
    json.key("broken").open('{').key("offset").number(walk.at());
    put_refusal(json, walk.outcome().refusal);
    json.key("id").number(begun.id != 0 ? std::optional(begun.id) : std::nullopt);
    json.key("length").number(begun.offset != 0 ? std::optional(begun.length) : std::nullopt).close('}');
}

void put_container(Json &json, const Container &container) {
    json.key("size").number(container.size()).key("first_bytes").hex(container.first_bytes());
    put_version(json, container.version());
    json.key("sections").open('[');
    container.each([&](std::uint64_t number, const Section &section) {
        json.open('{').key("id").number(section.id);
        put_name(json, section.id);
        json.key("offset").number(section.offset).key("length").number(section.length);
        json.key("alignment").number(section.alignment);
        json.key("counts").truth(container.counting(section.id) == number).close('}');
    });
    json.close(']');
    const std::optional<Walk> &walk = container.walk();
    const bool ended = walk && walk->outcome();
    json.key("end").number(ended ? std::optional(walk->at() - 1) : std::nullopt);
    if (walk && !walk->outcome()) {
        put_broken(json, *walk);
    } else {
        json.key("broken").null();
    }
}

void put_place(Json &json, const Held &held) {
    json.key("instance").number(held.instance).key("slot").number(held.slot);
    json.key("offset").number(held.offset).key("length").number(held.file.size());
}

}  // namespace

void put_failure(Sink &out, std::string_view name, const Failure &failure) {
    Json json = begun(out, name, failure.status);
    json.key("path").text(failure.path).key("error").text(failure.why);
    end(out, json);
}

void put_refusal(Sink &out, std::string_view name, tikomuci::Outcome outcome) {
    Json json = refused(out, name, outcome);
    end(out, json);
}

void put_size(Sink &out, std::string_view name, Bytes file, tikomuci::Size size) {
    Json json = accepted(out, name);
    json.key("size").number(file.size()).key("words").number(size.words).key("pool").number(size.bytes);
    end(out, json);
}

void put_shown(Sink &out, std::string_view name, const Container &container, tikomuci::Outcome outcome) {
    Json json = refused(out, name, outcome);
    put_container(json, container);
    end(out, json);
}

void put_shown(Sink &out, std::string_view name, const Container &container, const Sheet &sheet,
               std::uint64_t constants_at) {
    Json json = accepted(out, name);
    put_container(json, container);
    put_tables(json, sheet, constants_at);
    end(out, json);
}

void put_view(Sink &out, std::string_view name, std::string_view key, std::uint64_t number, std::uint64_t offset,
              Bytes bytes) {
    Json json = accepted(out, name);
    json.key(key).number(number).key("offset").number(offset);
    put_sum(json, bytes);
    end(out, json);
}

void put_type(Sink &out, std::string_view name, std::uint64_t number, std::string_view text) {
    Json json = accepted(out, name);
    json.key("type").number(number).key("text").text(text);
    end(out, json);
}

void put_answer(Sink &out, std::string_view name, std::uint64_t instance, const tikomuci_answer &answer) {
    const tikomuci::Outcome outcome = tikomuci::outcome_of(answer);
    Json json = outcome ? accepted(out, name) : refused(out, name, outcome);
    json.key("instance").number(instance);
    if (outcome) {
        json.key("slot").number(answer.first);
    }
    end(out, json);
}

void put_cache(Sink &out, std::string_view owners, std::string_view buffer, const Cache &cache, std::size_t taken) {
    Json json = accepted(out, owners);
    json.key("buffer").text(buffer).key("slots").number(cache.slots());
    json.key("slot_size").number(cache.slot_size()).key("taken").number(taken);
    end(out, json);
}

void put_cache(Sink &out, std::string_view owners, std::string_view buffer, tikomuci::Outcome outcome,
               const std::vector<std::string> &faults) {
    Json json = refused(out, owners, outcome);
    json.key("buffer").text(buffer);
    put_table(json, "faults", faults, [&](std::string_view fault) { json.text(fault); });
    end(out, json);
}

void put_held(Sink &out, std::string_view name, const Held &held, tikomuci::Outcome outcome) {
    Json json = refused(out, name, outcome);
    put_place(json, held);
    end(out, json);
}

void put_held(Sink &out, std::string_view name, const Held &held, const Sheet &sheet, std::uint64_t constants_at) {
    Json json = accepted(out, name);
    put_place(json, held);
    put_constants(json, sheet, constants_at);
    end(out, json);
}

}  // namespace command::object
