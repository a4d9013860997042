// Threads, promises, locks, clocks and shared pointers of the C++ library.
#include <atomic>
#include <chrono>
#include <condition_variable>
#include <future>
#include <memory>
#include <mutex>
#include <queue>
#include <shared_mutex>
#include <thread>
#include <unordered_map>

template <typename T> class Channel {
    std::mutex lock;
    std::condition_variable ready;
    std::queue<T> held;

public:
    void put(T value)
    {
        std::lock_guard<std::mutex> held_lock(lock);
        held.push(std::move(value));
        ready.notify_one();
    }
    T take()
    {
        std::unique_lock<std::mutex> waiting(lock);
        ready.wait_for(waiting, std::chrono::milliseconds(20), [this] { return !held.empty(); });
        T value = std::move(held.front());
        held.pop();
        return value;
    }
};

template <typename Key, typename Value> class Cache {
    mutable std::shared_mutex lock;
    std::unordered_map<Key, std::shared_ptr<Value>> values;
    std::atomic<long> missed{0};

public:
    std::shared_ptr<Value> get(const Key &key)
    {
        {
            std::shared_lock<std::shared_mutex> reading(lock);
            auto found = values.find(key);
            if (found != values.end())
                return found->second;
        }
        std::unique_lock<std::shared_mutex> writing(lock);
        missed.fetch_add(1, std::memory_order_relaxed);
        return values.emplace(key, std::make_shared<Value>()).first->second;
    }
};

long everything(int n)
{
    static Cache<int, long> longs;
    static Cache<long, double> doubles;
    Channel<std::unique_ptr<int>> channel;
    auto worker = std::async(std::launch::async, [&] { return *channel.take() + *longs.get(n); });
    std::thread other([&, n] { channel.put(std::make_unique<int>(n)); });
    std::packaged_task<double(long)> task([](long k) { return *doubles.get(k); });
    auto result = task.get_future();
    task(n);
    other.join();
    auto now = std::chrono::steady_clock::now().time_since_epoch();
    return worker.get() + (long)result.get() + std::chrono::duration_cast<std::chrono::seconds>(now).count();
}
