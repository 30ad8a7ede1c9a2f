// A heap script on V8's own cppgc: an addon that node loads, which reads a script from its input and writes a report.
// It knows the commands type, new, set, get, drop, gc now precise and sweep all. Objects have numbers and no addresses,
// and a collection sweeps too, so that what it finalises comes before its pause. README.md in the folder above says more.

#include <cppgc/allocation.h>
#include <cppgc/garbage-collected.h>
#include <cppgc/member.h>
#include <cppgc/persistent.h>
#include <cppgc/visitor.h>

#include <algorithm>
#include <array>
#include <charconv>
#include <cstdint>
#include <cstdio>
#include <deque>
#include <memory>
#include <new>
#include <string>
#include <string_view>

#include "quiet_heap.h"

namespace {

// Lines of text.
class Report {
 public:
  void Line(std::string_view text) { text_.append(text).push_back('\n'); }

  void Line(std::string_view text, std::uint64_t number) {
    std::array<char, 20> digits;
    const auto length = std::to_chars(digits.begin(), digits.end(), number).ptr - digits.data();
    text_.append(text).append(digits.data(), length).push_back('\n');
  }

  const std::string& text() const { return text_; }

 private:
  std::string text_;
};

// What objects of one type have in common: the kinds of their fields, and who is told of their end.
struct Type {
  std::string kinds;
  Report* report;
  std::uint64_t finalised = 0;
};

// An object with as many words after it as its type has fields, and as it has extra words.
class Object final : public cppgc::GarbageCollected<Object> {
 public:
  using Strong = cppgc::Member<Object>;
  using Weak = cppgc::WeakMember<Object>;

  Object(Type* type, std::uint32_t number) : type_(type), number_(number) {
    for (std::size_t i = 0; i < type->kinds.size(); ++i) {
      if (IsStrong(i)) new (Word(i)) Strong;
      if (IsWeak(i)) new (Word(i)) Weak;
    }
  }

  ~Object() {
    ++type_->finalised;
    type_->report->Line("finalise ", number_);
  }

  void Trace(cppgc::Visitor* visitor) const {
    for (std::size_t i = 0; i < type_->kinds.size(); ++i) {
      if (IsStrong(i)) visitor->Trace(*static_cast<const Strong*>(Word(i)));
      if (IsWeak(i)) visitor->Trace(*static_cast<const Weak*>(Word(i)));
    }
  }

  std::uint32_t number() const { return number_; }
  std::size_t fields() const { return type_->kinds.size(); }
  bool IsReference(std::size_t i) const { return IsStrong(i) || IsWeak(i); }

  Object* Get(std::size_t i) const {
    return IsStrong(i) ? static_cast<const Strong*>(Word(i))->Get() : static_cast<const Weak*>(Word(i))->Get();
  }

  void Set(std::size_t i, Object* target) {
    if (IsStrong(i)) {
      *static_cast<Strong*>(Word(i)) = target;
    } else {
      *static_cast<Weak*>(Word(i)) = target;
    }
  }

 private:
  bool IsStrong(std::size_t i) const { return type_->kinds[i] == 'S'; }
  bool IsWeak(std::size_t i) const { return type_->kinds[i] == 'W'; }
  void* Word(std::size_t i) { return reinterpret_cast<std::uint64_t*>(this + 1) + i; }
  const void* Word(std::size_t i) const { return reinterpret_cast<const std::uint64_t*>(this + 1) + i; }

  Type* type_;
  std::uint32_t number_;
};

// The words of a line, or the lines of a text, which are taken one after the other.
class Words {
 public:
  explicit Words(std::string_view text) : rest_(text) {}

  bool IsEmpty() const { return rest_.empty(); }

  std::string_view Next(char end = ' ') {
    const std::string_view word = rest_.substr(0, rest_.find(end));
    rest_.remove_prefix(std::min(rest_.size(), word.size() + 1));
    return word;
  }

  std::uint32_t Number() {
    const std::string_view word = Next();
    std::uint32_t number = 0;
    std::from_chars(word.data(), word.data() + word.size(), number);
    return number;
  }

 private:
  std::string_view rest_;
};

class Script {
 public:
  void Do(std::string_view line) {
    Words words(line);
    const std::string_view command = words.Next();
    if (command == "new") return New(words);
    if (command == "set") return Set(words);
    if (command == "get") return Get(words);
    if (command == "drop") return Drop(words);
    if (command == "gc") return CollectAll();
    if (command == "sweep") return report_.Line("swept");
    if (command == "type") return AddType(words);
  }

  const std::string& End() {
    report_.Line("end objects ", made_ - Finalised());
    return report_.text();
  }

 private:
  void AddType(Words& words) {
    const std::string_view kinds = words.Next();
    report_.Line("type ", types_.size());
    types_.push_back({std::string(kinds == "-" ? "" : kinds), &report_});
  }

  void New(Words& words) {
    const std::uint32_t slot = words.Number(), type = words.Number(), extra = words.Number();
    Type& made = types_.at(type);
    const cppgc::AdditionalBytes bytes(8 * (made.kinds.size() + extra));
    slots_.at(slot) = cppgc::MakeGarbageCollected<Object>(heap_->GetAllocationHandle(), bytes, &made, made_);
    report_.Line("node ", made_++);
  }

  void Set(Words& words) {
    Object* holder = slots_.at(words.Number());
    const std::uint32_t field = words.Number();
    if (IsRefused(holder, field)) return;
    const std::string_view target = words.Next();
    holder->Set(field, target == "-" ? nullptr : slots_.at(Words(target).Number()).Get());
    report_.Line("ok");
  }

  void Get(Words& words) {
    Object* holder = slots_.at(words.Number());
    const std::uint32_t field = words.Number();
    if (IsRefused(holder, field)) return;
    Object* found = holder->Get(field);
    slots_.at(words.Number()) = found;
    found ? report_.Line("node ", found->number()) : report_.Line("null");
  }

  bool IsRefused(const Object* holder, std::uint32_t field) {
    const bool is_fine = holder && field < holder->fields() && holder->IsReference(field);
    if (!is_fine) report_.Line("refused");
    return !is_fine;
  }

  void Drop(Words& words) {
    slots_.at(words.Number()).Clear();
    report_.Line("ok");
  }

  void CollectAll() {
    Collect(*heap_);
    report_.Line("pause kept ", made_ - Finalised());
  }

  std::uint64_t Finalised() const {
    std::uint64_t count = 0;
    for (const Type& type : types_) count += type.finalised;
    return count;
  }

  Report report_;
  std::deque<Type> types_;
  std::unique_ptr<cppgc::Heap> heap_ = MakeQuietHeap();
  std::array<cppgc::Persistent<Object>, 256> slots_;
  std::uint32_t made_ = 0;
};

std::string ReadAll(std::FILE* file) {
  std::string text;
  std::array<char, 65536> part;
  while (const std::size_t count = std::fread(part.data(), 1, part.size(), file)) text.append(part.data(), count);
  return text;
}

}  // namespace

// callgrind counts what is done between the beginning and the end of this function.
extern "C" [[gnu::noipa, gnu::visibility("default")]] Script* measured() {
  auto* script = new Script;
  const std::string text = ReadAll(stdin);
  for (Words lines(text); !lines.IsEmpty();) script->Do(lines.Next('\n'));
  const std::string& report = script->End();
  std::fwrite(report.data(), 1, report.size(), stdout);
  std::fflush(stdout);
  return script;
}

// What node calls when it has loaded the addon. The objects that are left are finalised, and nobody is told.
extern "C" [[gnu::visibility("default")]] void* napi_register_module_v1(void*, void* exports) {
  delete measured();
  return exports;
}
