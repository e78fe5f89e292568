/* What wallthyme.hpp takes of C++: check has it under the name of each header that it includes. */
#pragma once
#include <stdio.h>

namespace std {
using ::fprintf;
using ::size_t;

template <class T> struct remove_reference { using type = T; };
template <class T> struct remove_reference<T &> { using type = T; };
template <class T> typename remove_reference<T>::type &&move(T &&value) noexcept;
template <class T> void swap(T &one, T &other) noexcept;

enum memory_order { memory_order_relaxed, memory_order_acq_rel };
template <class T> struct atomic {
    atomic(T value) noexcept;
    T load() const noexcept;
    T exchange(T value) noexcept;
    T fetch_add(size_t more, memory_order order) noexcept;
    T fetch_sub(size_t less, memory_order order) noexcept;
};

struct nothrow_t {};
extern const nothrow_t nothrow;
template <class T> struct default_delete {};
template <class T, class Delete = default_delete<T>> struct unique_ptr {
    unique_ptr() noexcept;
    explicit unique_ptr(T *owned) noexcept;
    unique_ptr(unique_ptr &&other) noexcept;
    explicit operator bool() const noexcept;
    T *operator->() const noexcept;
    T *release() noexcept;
};

struct string {
    string(const char *text);
    string operator+(const char *text) const;
};
struct runtime_error {
    explicit runtime_error(const string &what);
};
} // namespace std

void *operator new(size_t size, const std::nothrow_t &) noexcept;
