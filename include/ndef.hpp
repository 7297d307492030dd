/// ndef.hpp: the library of ndef.h for C++17.
///
///     auto message = ndef::message::check(bytes);
///     if (!message) return print(message.error());
///     for (ndef::record record : *message)
///         if (auto text = record.as<ndef::text>()) std::cout << text->str() << '\n';
///
/// This header makes no decision about the format: it hands each question to a call of ndef.h, and gives its answer a
/// type. Messages, records and payloads are views of bytes that the caller keeps. What can fail returns a result.
/// Nothing allocates memory except the functions that return a std::string or a std::vector, links and fields that are
/// not given an array, and what ndef_building.hpp has: builders of posters and handovers, messages that own their bytes,
/// filters of records. Nothing throws, except std::bad_alloc where such memory is refused, and `value()` of a result.
///
/// The rules at the head of ndef.h are kept as long as the memory of each view lives and stays as it is, and a buffer
/// holds no bytes that are still needed.
#ifndef NDEF_HPP
#define NDEF_HPP

#include "ndef_answers.hpp"
#include "ndef_building.hpp"
#include "ndef_fields.hpp"
#include "ndef_messages.hpp"
#include "ndef_payloads.hpp"
#include "ndef_writing.hpp"

#endif
