// A heap of cppgc that does nothing unasked, and whose collections mark and sweep at once, on one thread.

#ifndef BENCH_CPPGC_QUIET_HEAP_H_
#define BENCH_CPPGC_QUIET_HEAP_H_

#include <cppgc/heap.h>
#include <cppgc/platform.h>
#include <libplatform/libplatform.h>

#include <cstddef>
#include <memory>
#include <utility>

// No tasks and no threads.
class QuietPlatform final : public cppgc::Platform {
 public:
  cppgc::PageAllocator* GetPageAllocator() override { return v8_->GetPageAllocator(); }
  double MonotonicallyIncreasingTime() override { return v8_->MonotonicallyIncreasingTime(); }

 private:
  std::unique_ptr<v8::Platform> v8_ = v8::platform::NewSingleThreadedDefaultPlatform();
};

inline std::unique_ptr<cppgc::Heap> MakeQuietHeap() {
  cppgc::Heap::HeapOptions options;
  options.marking_support = cppgc::Heap::MarkingType::kAtomic;
  options.sweeping_support = cppgc::Heap::SweepingType::kAtomic;
  // So much may be made before a collection that nobody asked for.
  options.resource_constraints.initial_heap_size_bytes = std::size_t{1} << 32;
  return cppgc::Heap::Create(std::make_shared<QuietPlatform>(), std::move(options));
}

inline void Collect(cppgc::Heap& heap) {
  heap.ForceGarbageCollectionSlow("bench", "bench", cppgc::EmbedderStackState::kNoHeapPointers);
}

#endif  // BENCH_CPPGC_QUIET_HEAP_H_
