// How deep a call goes.
#pragma once
#include <cstddef>
#include <functional>

// The bytes of stack that the call wrote to, seen on a painted stack of 8 MB.
size_t stack_of(const std::function<void()> &call);
