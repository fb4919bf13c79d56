/*
 * pmdk_transfers POOL SEED COUNT makes, by PMDK's libpmemobj, the transfers that
 * `pm_transfers SEED COUNT LANES ZONES timed` makes, and prints the same lines: each transfer is a
 * transaction that adds and writes two counters of the pool's root under a mutex in it. It makes the
 * pool, and leaves it. With one more word, THREADS, so many threads make them, thread k the transfers
 * k, k + THREADS and so on, and the time is that of the clock, in place of the processor's. It is no
 * part of the product: `make bench` builds and runs it where the library is there.
 */
#include <libpmemobj.h>
#include <inttypes.h>
#include <pthread.h>
#include <stdio.h>
#include <stdlib.h>
#include <time.h>

#define COUNTERS 64
#define MOST_THREADS 32

struct root {
	PMEMmutex mutex;
	uint64_t counters[COUNTERS];
};

/* The next number of a linear congruential generator. */
static uint64_t
draw(uint64_t *seed)
{
	*seed = *seed * 6364136223846793005u + 1442695040888963407u;
	return *seed >> 33;
}

/* The time of a clock, in nanoseconds: this process's processor time, or the wall's. */
static int64_t
time_of(clockid_t clock)
{
	struct timespec time;
	clock_gettime(clock, &time);
	return (int64_t)time.tv_sec * 1000000000 + time.tv_nsec;
}

struct transfer {
	unsigned gains;
	unsigned loses;
	uint64_t amount;
};

/* The transfers that the seed draws. */
static struct transfer *
drawn(uint64_t seed, uint64_t count)
{
	struct transfer *all = malloc((count + 1) * sizeof(*all));
	if (all == NULL) {
		fprintf(stderr, "pmdk_transfers: no memory\n");
		exit(1);
	}
	for (uint64_t i = 0; i < count; i++) {
		all[i].gains = draw(&seed) % COUNTERS;
		all[i].loses = draw(&seed) % COUNTERS;
		all[i].amount = 1 + draw(&seed) % 1000;
	}
	return all;
}

/* A counter gains the amount, and another loses it, in one transaction. */
static void
make(PMEMobjpool *pool, struct root *root, const struct transfer *one)
{
	uint64_t *gains = &root->counters[one->gains];
	uint64_t *loses = &root->counters[one->loses];

	TX_BEGIN_PARAM(pool, TX_PARAM_MUTEX, &root->mutex, TX_PARAM_NONE) {
		pmemobj_tx_add_range_direct(gains, sizeof(*gains));
		pmemobj_tx_add_range_direct(loses, sizeof(*loses));
		*gains += one->amount;
		*loses -= one->amount;
	} TX_ONABORT {
		fprintf(stderr, "pmdk_transfers: %s\n", pmemobj_errormsg());
		exit(1);
	} TX_END
}

/* What a thread makes: every `step`-th of the transfers from `first` on. */
struct share {
	PMEMobjpool *pool;
	struct root *root;
	const struct transfer *all;
	uint64_t first;
	uint64_t step;
	uint64_t count;
};

static void *
make_share(void *arg)
{
	const struct share *share = arg;
	for (uint64_t i = share->first; i < share->count; i += share->step)
		make(share->pool, share->root, &share->all[i]);
	return NULL;
}

int
main(int argc, char **argv)
{
	if (argc != 4 && argc != 5) {
		fprintf(stderr, "usage: pmdk_transfers POOL SEED COUNT [THREADS]\n");
		return 2;
	}
	uint64_t count = strtoull(argv[3], NULL, 10);
	struct transfer *all = drawn(strtoull(argv[2], NULL, 10), count);
	uint64_t threads = argc == 5 ? strtoull(argv[4], NULL, 10) : 1;
	if (threads < 1 || threads > MOST_THREADS) {
		fprintf(stderr, "pmdk_transfers: 1 to %d threads\n", MOST_THREADS);
		return 2;
	}

	PMEMobjpool *pool = pmemobj_create(argv[1], "bench", PMEMOBJ_MIN_POOL, 0600);
	if (pool == NULL) {
		fprintf(stderr, "pmdk_transfers: %s\n", pmemobj_errormsg());
		return 1;
	}
	PMEMoid oid = pmemobj_root(pool, sizeof(struct root));
	if (OID_IS_NULL(oid)) {
		fprintf(stderr, "pmdk_transfers: %s\n", pmemobj_errormsg());
		return 1;
	}
	struct root *root = pmemobj_direct(oid);

	struct share shares[MOST_THREADS];
	for (uint64_t k = 0; k < threads; k++)
		shares[k] = (struct share){pool, root, all, k, threads, count};
	clockid_t clock = argc == 5 ? CLOCK_MONOTONIC : CLOCK_PROCESS_CPUTIME_ID;
	int64_t before = time_of(clock);
	if (argc == 5) {
		pthread_t running[MOST_THREADS];
		for (uint64_t k = 0; k < threads; k++)
			if (pthread_create(&running[k], NULL, make_share, &shares[k]) != 0) {
				fprintf(stderr, "pmdk_transfers: no thread\n");
				return 1;
			}
		for (uint64_t k = 0; k < threads; k++)
			pthread_join(running[k], NULL);
	} else {
		make_share(&shares[0]);
	}
	int64_t took = time_of(clock) - before;

	/* The sum, and a digest as FNV-1a makes it. */
	uint64_t total = 0, state = 0xcbf29ce484222325u;
	for (int i = 0; i < COUNTERS; i++) {
		total += root->counters[i];
		state = (state ^ root->counters[i]) * 0x100000001b3u;
	}
	printf("transfers %" PRIu64 "\ntotal %" PRIu64 "\nstate %" PRIu64 "\nnanoseconds %" PRId64 "\n",
		count, total, state, took);
	pmemobj_close(pool);
	free(all);
	return 0;
}
