/* Each pipeline as a loop that one would write by hand. */
#include "loop.h"
#include "offset.h"

#define HAND(name) int64_t WITH_OFFSET(hand_##name, OFFSET)(LOOP_INPUTS)
#define UNUSED(name) (void)(name)

HAND(sum) {
  UNUSED(b), UNUSED(c), UNUSED(m);
  int64_t sum = 0;
  for (int64_t i = 0; i < n; i++) {
    sum += a[i];
  }
  return sum;
}

HAND(sum_of_squares) {
  UNUSED(b), UNUSED(c), UNUSED(m);
  int64_t sum = 0;
  for (int64_t i = 0; i < n; i++) {
    sum += a[i] * a[i];
  }
  return sum;
}

HAND(even_squares) {
  UNUSED(b), UNUSED(c), UNUSED(m);
  int64_t sum = 0;
  for (int64_t i = 0; i < n; i++) {
    if (a[i] % 2 == 0) {
      sum += a[i] * a[i];
    }
  }
  return sum;
}

HAND(maps) {
  UNUSED(b), UNUSED(c), UNUSED(m);
  int64_t sum = 0;
  for (int64_t i = 0; i < n; i++) {
    sum += (((a[i] + 1) * 2 - 3) * 5 + 7) * 11 - 13;
  }
  return sum;
}

HAND(filters) {
  UNUSED(b), UNUSED(c), UNUSED(m);
  int64_t sum = 0;
  for (int64_t i = 0; i < n; i++) {
    int64_t x = a[i];
    if (x > 1 && x > 2 && x > 3 && x > 4 && x > 5 && x > 6 && x > 7) {
      sum += x;
    }
  }
  return sum;
}

HAND(filter_of_scan) {
  UNUSED(b), UNUSED(c), UNUSED(m);
  int64_t state = 0;
  int64_t sum = 0;
  for (int64_t i = 0; i < n; i++) {
    state += a[i];
    if (state % 3 != 0) {
      sum += state;
    }
  }
  return sum;
}

HAND(take_while) {
  UNUSED(b), UNUSED(c), UNUSED(m);
  int64_t sum = 0;
  for (int64_t i = 0; i < n; i++) {
    if (a[i] >= 1000) {
      break;
    }
    sum += a[i];
  }
  return sum;
}

HAND(dot_product) {
  UNUSED(c), UNUSED(m);
  int64_t sum = 0;
  for (int64_t i = 0; i < n; i++) {
    sum += a[i] * b[i];
  }
  return sum;
}

HAND(cart) {
  UNUSED(a), UNUSED(b), UNUSED(n);
  int64_t sum = 0;
  for (int64_t i = 0; i < m; i++) {
    for (int64_t j = 0; j < m; j++) {
      sum += c[i] * c[j];
    }
  }
  return sum;
}

HAND(flat_map_after_zip) {
  UNUSED(a), UNUSED(b), UNUSED(n);
  int64_t sum = 0;
  for (int64_t i = 0; i < m; i++) {
    for (int64_t j = 0; j < m; j++) {
      sum += c[i] * c[i] + c[j];
    }
  }
  return sum;
}

HAND(zip_after_flat_map) {
  UNUSED(b);
  int64_t sum = 0;
  int64_t k = 0;
  for (int64_t i = 0; i < m; i++) {
    for (int64_t j = 0; j < m; j++) {
      if (k == n) {
        return sum;
      }
      sum += (c[i] + c[j]) * a[k];
      k++;
    }
  }
  return sum;
}

HAND(flat_map_take) {
  UNUSED(a), UNUSED(b), UNUSED(n);
  int64_t left = 8000000;
  int64_t sum = 0;
  for (int64_t i = 0; i < m; i++) {
    for (int64_t j = 0; j < m; j++) {
      if (left == 0) {
        return sum;
      }
      sum += c[i] * c[j];
      left--;
    }
  }
  return sum;
}

HAND(zip_of_flat_maps) {
  UNUSED(a), UNUSED(b), UNUSED(n);
  int64_t sum = 0;
  int64_t k = 0;
  int64_t l = 0;
  for (int64_t i = 0; i < m; i++) {
    for (int64_t j = 0; j < m; j++) {
      if (l == m) {
        k++;
        l = 0;
      }
      if (k == m) {
        return sum;
      }
      sum += (c[i] + c[j]) * (c[k] * c[l]);
      l++;
    }
  }
  return sum;
}
