; What is called narrow must be a size_t in C, and what is called wide must keep its 64 bits. Each number that may be wide is compared, so that
; all its bits count.

define internal fastcc i64 @"sizes::of_few"(i64 noundef %a0, i64 noundef %a1) unnamed_addr #0 {
start:
  %narrow.more = add i64 %a0, 1
  %wide.more = add i64 %a1, 1
  %is.less = icmp ult i64 %narrow.more, %wide.more
  %made = select i1 %is.less, i64 %narrow.more, i64 %a0
  ret i64 %made
}

; It gives what it is handed: all 64 bits.
define internal fastcc i64 @"sizes::of_many"(i64 noundef %a0) unnamed_addr #0 {
start:
  %wide.twice = add i64 %a0, %a0
  ret i64 %wide.twice
}

; Sums of two numbers of 32 bits, and of 16: the first one may be too large for 32 bits.
define i64 @dfu_sizes_sums(i32 %a0, i32 %a1, i64 %a2) #0 {
start:
  %narrow.a = zext i32 %a0 to i64
  %narrow.b = zext i32 %a1 to i64
  %a.short = trunc i32 %a0 to i16
  %b.short = trunc i32 %a1 to i16
  %narrow.c = zext i16 %a.short to i64
  %narrow.d = zext i16 %b.short to i64
  %wide.sum = add nuw nsw i64 %narrow.a, %narrow.b
  %narrow.sum = add nuw nsw i64 %narrow.c, %narrow.d
  %wide.product = mul i64 %narrow.a, %narrow.d
  %narrow.product = mul i64 %narrow.c, %narrow.d
  %wide.shifted = shl i64 %narrow.a, 1
  %narrow.shifted = shl i64 %narrow.c, 16
  %wide.less = sub i64 %narrow.a, %narrow.b
  %wide.or = or i64 %narrow.a, 4294967296
  %narrow.or = or i64 %narrow.a, %narrow.c
  %wide.xor = xor i64 %narrow.a, -1
  %wide.sat = call i64 @llvm.uadd.sat.i64(i64 %narrow.a, i64 %narrow.b)
  %narrow.sat = call i64 @llvm.usub.sat.i64(i64 %narrow.a, i64 %narrow.b)
  %narrow.few = call fastcc i64 @"sizes::of_few"(i64 %narrow.c, i64 %a2)
  %wide.many = call fastcc i64 @"sizes::of_many"(i64 %a2)
  %c0 = icmp ugt i64 %wide.sum, %a2
  %c1 = icmp ugt i64 %narrow.sum, %narrow.b
  %c2 = icmp ugt i64 %wide.product, %a2
  %c3 = icmp ugt i64 %narrow.product, %narrow.b
  %c4 = icmp ugt i64 %wide.shifted, %a2
  %c5 = icmp ugt i64 %narrow.shifted, %narrow.b
  %c6 = icmp ugt i64 %wide.less, %a2
  %c7 = icmp ugt i64 %wide.or, %a2
  %c8 = icmp ugt i64 %narrow.or, %narrow.b
  %c9 = icmp ugt i64 %wide.xor, %a2
  %c10 = icmp ugt i64 %wide.sat, %a2
  %c11 = icmp ugt i64 %narrow.sat, %narrow.b
  %c12 = icmp ugt i64 %wide.many, %narrow.b
  %c13 = icmp ugt i64 %narrow.a, 4294967295
  %c14 = icmp slt i64 %narrow.a, %narrow.c
  %c15 = icmp eq i64 %narrow.few, %a2
  %s0 = zext i1 %c0 to i64
  %r0 = shl i64 %s0, 1
  %s1 = zext i1 %c1 to i64
  %t1 = or i64 %r0, %s1
  %r1 = shl i64 %t1, 1
  %s2 = zext i1 %c2 to i64
  %t2 = or i64 %r1, %s2
  %r2 = shl i64 %t2, 1
  %s3 = zext i1 %c3 to i64
  %t3 = or i64 %r2, %s3
  %r3 = shl i64 %t3, 1
  %s4 = zext i1 %c4 to i64
  %t4 = or i64 %r3, %s4
  %r4 = shl i64 %t4, 1
  %s5 = zext i1 %c5 to i64
  %t5 = or i64 %r4, %s5
  %r5 = shl i64 %t5, 1
  %s6 = zext i1 %c6 to i64
  %t6 = or i64 %r5, %s6
  %r6 = shl i64 %t6, 1
  %s7 = zext i1 %c7 to i64
  %t7 = or i64 %r6, %s7
  %r7 = shl i64 %t7, 1
  %s8 = zext i1 %c8 to i64
  %t8 = or i64 %r7, %s8
  %r8 = shl i64 %t8, 1
  %s9 = zext i1 %c9 to i64
  %t9 = or i64 %r8, %s9
  %r9 = shl i64 %t9, 1
  %s10 = zext i1 %c10 to i64
  %t10 = or i64 %r9, %s10
  %r10 = shl i64 %t10, 1
  %s11 = zext i1 %c11 to i64
  %t11 = or i64 %r10, %s11
  %r11 = shl i64 %t11, 1
  %s12 = zext i1 %c12 to i64
  %t12 = or i64 %r11, %s12
  %r12 = shl i64 %t12, 1
  %s13 = zext i1 %c13 to i64
  %t13 = or i64 %r12, %s13
  %r13 = shl i64 %t13, 1
  %s14 = zext i1 %c14 to i64
  %t14 = or i64 %r13, %s14
  %r14 = shl i64 %t14, 1
  %s15 = zext i1 %c15 to i64
  %t15 = or i64 %r14, %s15
  ret i64 %t15
}

; Parts of a number of 64 bits.
define i64 @dfu_sizes_parts(i64 %a0, i64 %a1) #0 {
start:
  %narrow.low = and i64 %a0, 4294967295
  %wide.low = and i64 %a0, 8589934591
  %narrow.high = lshr i64 %a0, 32
  %wide.high = lshr i64 %a0, 31
  %narrow.least = call i64 @llvm.umin.i64(i64 %a0, i64 %narrow.high)
  %wide.least = call i64 @llvm.umin.i64(i64 %a0, i64 %a1)
  %wide.most = call i64 @llvm.umax.i64(i64 %a0, i64 %narrow.high)
  %narrow.rest = urem i64 %a0, 4294967296
  %wide.rest = urem i64 %a0, 4294967298
  %narrow.part = udiv i64 %a0, 4294967296
  %wide.part = udiv i64 %a0, 3
  %c0 = icmp ugt i64 %narrow.low, %narrow.high
  %c1 = icmp ugt i64 %wide.low, %a1
  %c2 = icmp ugt i64 %wide.high, %a1
  %c3 = icmp ugt i64 %narrow.least, %narrow.low
  %c4 = icmp ugt i64 %wide.least, %narrow.low
  %c5 = icmp ugt i64 %wide.most, %a1
  %c6 = icmp ugt i64 %narrow.rest, %narrow.high
  %c7 = icmp ugt i64 %wide.rest, %a1
  %c8 = icmp ugt i64 %narrow.part, %narrow.low
  %c9 = icmp ugt i64 %wide.part, %a1
  %s0 = zext i1 %c0 to i64
  %r0 = shl i64 %s0, 1
  %s1 = zext i1 %c1 to i64
  %t1 = or i64 %r0, %s1
  %r1 = shl i64 %t1, 1
  %s2 = zext i1 %c2 to i64
  %t2 = or i64 %r1, %s2
  %r2 = shl i64 %t2, 1
  %s3 = zext i1 %c3 to i64
  %t3 = or i64 %r2, %s3
  %r3 = shl i64 %t3, 1
  %s4 = zext i1 %c4 to i64
  %t4 = or i64 %r3, %s4
  %r4 = shl i64 %t4, 1
  %s5 = zext i1 %c5 to i64
  %t5 = or i64 %r4, %s5
  %r5 = shl i64 %t5, 1
  %s6 = zext i1 %c6 to i64
  %t6 = or i64 %r5, %s6
  %r6 = shl i64 %t6, 1
  %s7 = zext i1 %c7 to i64
  %t7 = or i64 %r6, %s7
  %r7 = shl i64 %t7, 1
  %s8 = zext i1 %c8 to i64
  %t8 = or i64 %r7, %s8
  %r8 = shl i64 %t8, 1
  %s9 = zext i1 %c9 to i64
  %t9 = or i64 %r8, %s9
  ret i64 %t9
}

; A number that a branch bounds, less one that is at most that; and one that nothing bounds. A number that is not 0 has one less.
define i64 @dfu_sizes_bounded(i64 %a0, i64 %a1, i64 %a2) #0 {
start:
  %is.few = icmp ult i64 %a0, 1000
  br i1 %is.few, label %few.1, label %many.2

few.1:                                            ; preds = %start
  %narrow.twice = add i64 %a0, %a0
  %is.none = icmp eq i64 %a1, 0
  br i1 %is.none, label %none.3, label %some.4

none.3:                                           ; preds = %few.1
  %wide.before = add i64 %a1, -1
  %c3 = icmp ugt i64 %wide.before, %a2
  %s3 = zext i1 %c3 to i64
  %t3 = add i64 %s3, %narrow.twice
  ret i64 %t3

some.4:                                           ; preds = %few.1
  %narrow.before = add i64 %a1, -1
  %c4 = icmp ugt i64 %narrow.before, %narrow.twice
  %s4 = zext i1 %c4 to i64
  ret i64 %s4

many.2:                                           ; preds = %start
  %wide.twice = add i64 %a0, %a0
  %is.in = icmp ule i64 %a2, %a1
  br i1 %is.in, label %in.5, label %out.6

in.5:                                             ; preds = %many.2
  %narrow.rest = sub i64 %a1, %a2
  %narrow.half = lshr i64 %a1, 1
  %narrow.other = sub i64 %a1, %narrow.half
  %c5 = icmp ugt i64 %narrow.rest, %narrow.other
  %s5 = zext i1 %c5 to i64
  %t5 = add i64 %s5, %wide.twice
  ret i64 %t5

out.6:                                            ; preds = %many.2
  %wide.rest = sub i64 %a1, %a2
  %c6 = icmp ugt i64 %wide.rest, %wide.twice
  %s6 = zext i1 %c6 to i64
  ret i64 %s6
}

; A number that counts by ones to one that is handed; and two that do not: one goes by twos, and the other one begins anywhere.
define i64 @dfu_sizes_counts(i64 %a0, i64 %a1) #0 {
start:
  br label %loop.1

loop.1:                                           ; preds = %on.2, %start
  %narrow.k = phi i64 [ 0, %start ], [ %narrow.next, %on.2 ]
  %wide.two = phi i64 [ 0, %start ], [ %wide.two.next, %on.2 ]
  %wide.any = phi i64 [ %a1, %start ], [ %wide.any.next, %on.2 ]
  %is.end = icmp eq i64 %narrow.k, %a0
  br i1 %is.end, label %done.3, label %on.2

on.2:                                             ; preds = %loop.1
  %narrow.next = add i64 %narrow.k, 1
  %wide.two.next = add i64 %wide.two, 1431655765
  %wide.any.next = add i64 %wide.any, 1
  br label %loop.1

done.3:                                           ; preds = %loop.1
  %c0 = icmp ugt i64 %wide.two, %a1
  %s0 = zext i1 %c0 to i64
  %r0 = shl i64 %s0, 1
  %c1 = icmp eq i64 %wide.any, 4294967299
  %s1 = zext i1 %c1 to i64
  %t1 = or i64 %r0, %s1
  ret i64 %t1
}

; Of what moves a place, is a number of bytes, or becomes 32 bits, the low 32 count. Of what is compared besides, all count.
define i64 @dfu_sizes_low(ptr %a0, i64 %a1, i64 %a2) #0 {
start:
  %narrow.by = load i64, ptr %a0, align 1
  %p = getelementptr i8, ptr %a0, i64 %narrow.by
  %x = load i8, ptr %p, align 1
  %narrow.moved = add i64 %narrow.by, -3
  %narrow.cut = xor i64 %narrow.moved, %a1
  %y = trunc i64 %narrow.cut to i32
  %wide.read = add i64 %a1, 8
  %q = getelementptr i8, ptr %a0, i64 %wide.read
  %is.more = icmp ugt i64 %wide.read, %a2
  %x.wide = zext i8 %x to i64
  %y.wide = zext i32 %y to i64
  %z.wide = zext i1 %is.more to i64
  %u = shl i64 %x.wide, 48
  %v = shl i64 %z.wide, 40
  %w = or i64 %u, %v
  %wide.all = or i64 %w, %y.wide
  ret i64 %wide.all
}

; Two ways to one number: it is as wide as the widest. A case beyond 32 bits is no case of what has 32.
define i64 @dfu_sizes_ways(i32 %a0, i64 %a1) #0 {
start:
  %narrow.a = zext i32 %a0 to i64
  switch i64 %narrow.a, label %other.2 [
    i64 4294967301, label %never.1
    i64 7, label %seven.3
  ]

never.1:                                          ; preds = %start
  br label %other.2

seven.3:                                          ; preds = %start
  br label %other.2

other.2:                                          ; preds = %seven.3, %never.1, %start
  %narrow.x = phi i64 [ %narrow.a, %start ], [ 1, %never.1 ], [ 70, %seven.3 ]
  %wide.x = phi i64 [ %a1, %start ], [ 2, %never.1 ], [ 71, %seven.3 ]
  %narrow.same = freeze i64 %narrow.x
  %is.odd = trunc i64 %narrow.same to i1
  %wide.y = select i1 %is.odd, i64 %wide.x, i64 %narrow.x
  %c = icmp ugt i64 %wide.y, %narrow.x
  %c.wide = zext i1 %c to i64
  %r = add i64 %c.wide, %narrow.same
  ret i64 %r
}

; Loops through bytes. The number to which one counts is a size, if so many bytes are read; but not if another byte is read in each turn, if
; the count begins elsewhere, or goes by twos.
define i64 @dfu_sizes_bytes(ptr %a0, i64 %a1, i64 %a2) #0 {
start:
  %narrow.n = sub i64 %a1, %a2
  %wide.m = sub i64 %a1, %a2
  %wide.o = sub i64 %a1, %a2
  br label %each.1

each.1:                                           ; preds = %byte.2, %start
  %narrow.i = phi i64 [ 0, %start ], [ %narrow.i.next, %byte.2 ]
  %sum = phi i64 [ 0, %start ], [ %sum.next, %byte.2 ]
  %is.all = icmp eq i64 %narrow.i, %narrow.n
  br i1 %is.all, label %same.3, label %byte.2

byte.2:                                           ; preds = %each.1
  %p = getelementptr i8, ptr %a0, i64 %narrow.i
  %x = load i8, ptr %p, align 1
  %x.wide = zext i8 %x to i64
  %sum.next = add i64 %sum, %x.wide
  %narrow.i.next = add i64 %narrow.i, 1
  br label %each.1

same.3:                                           ; preds = %again.4, %each.1
  %wide.j = phi i64 [ 0, %each.1 ], [ %wide.j.next, %again.4 ]
  %sum.same = phi i64 [ 0, %each.1 ], [ %sum.same.next, %again.4 ]
  %is.same = icmp eq i64 %wide.m, %wide.j
  br i1 %is.same, label %from.5, label %again.4

again.4:                                          ; preds = %same.3
  %q = getelementptr i8, ptr %a0, i64 3
  %y = load i8, ptr %q, align 1
  %y.wide = zext i8 %y to i64
  %sum.same.next = add i64 %sum.same, %y.wide
  %wide.j.next = add i64 %wide.j, 1
  br label %same.3

from.5:                                           ; preds = %next.6, %same.3
  %wide.k = phi i64 [ 1, %same.3 ], [ %wide.k.next, %next.6 ]
  %sum.from = phi i64 [ 0, %same.3 ], [ %sum.from.next, %next.6 ]
  %is.from = icmp ne i64 %wide.k, %wide.o
  br i1 %is.from, label %next.6, label %done.7

next.6:                                           ; preds = %from.5
  %t = getelementptr i8, ptr %a0, i64 %wide.k
  %z = load i8, ptr %t, align 1
  %z.wide = zext i8 %z to i64
  %sum.from.next = add i64 %sum.from, %z.wide
  %wide.k.next = add i64 %wide.k, 1
  br label %from.5

done.7:                                           ; preds = %from.5
  %u = shl i64 %sum.same, 16
  %v = shl i64 %sum.from, 32
  %uv = or i64 %u, %v
  %all = or i64 %uv, %sum
  ret i64 %all
}

; A loop that may end at a byte before: all bits of its number count.
define i64 @dfu_sizes_until(ptr %a0, i64 %a1, i64 %a2) #0 {
start:
  %wide.n = sub i64 %a1, %a2
  br label %each.1

each.1:                                           ; preds = %byte.2, %start
  %wide.i = phi i64 [ 0, %start ], [ %wide.i.next, %byte.2 ]
  %is.all = icmp eq i64 %wide.i, %wide.n
  br i1 %is.all, label %done.3, label %byte.2

byte.2:                                           ; preds = %each.1
  %p = getelementptr i8, ptr %a0, i64 %wide.i
  %x = load i8, ptr %p, align 1
  %wide.i.next = add i64 %wide.i, 1
  %is.zero = icmp eq i8 %x, 0
  br i1 %is.zero, label %done.3, label %each.1

done.3:                                           ; preds = %byte.2, %each.1
  %found = phi i64 [ 100, %each.1 ], [ %wide.i, %byte.2 ]
  ret i64 %found
}

; What is only the most of a least is handed over as a size; what is compared besides, or is a least of two numbers of 64 bits, is not.
define internal fastcc i64 @"sizes::capped"(i64 noundef %a0, i64 noundef %a1) unnamed_addr #0 {
start:
  %x = call i64 @llvm.umin.i64(i64 %a0, i64 %a1)
  %y = call i64 @llvm.umin.i64(i64 70000, i64 %a0)
  %z = shl i64 %y, 40
  %made = or i64 %x, %z
  ret i64 %made
}

define internal fastcc i64 @"sizes::hands_on"(i64 noundef %a0, i64 noundef %a1) unnamed_addr #0 {
start:
  %made = call fastcc i64 @"sizes::capped"(i64 noundef %a0, i64 noundef %a1)
  ret i64 %made
}

define internal fastcc i64 @"sizes::read"(i64 noundef %a0, i64 noundef %a1, i64 noundef %a2) unnamed_addr #0 {
start:
  %x = call i64 @llvm.umin.i64(i64 %a0, i64 %a1)
  %y = call i64 @llvm.umin.i64(i64 %a2, i64 %a0)
  %is.more = icmp ugt i64 %a0, 4294967295
  %z = zext i1 %is.more to i64
  %u = add i64 %x, %y
  %made = add i64 %u, %z
  ret i64 %made
}

define i64 @dfu_sizes_capped(i64 %a0, i32 %a1, i64 %a2) #0 {
start:
  %narrow.b = zext i32 %a1 to i64
  %x = call fastcc i64 @"sizes::hands_on"(i64 noundef %a0, i64 noundef %narrow.b)
  %y = call fastcc i64 @"sizes::capped"(i64 noundef %narrow.b, i64 noundef 8)
  %z = call fastcc i64 @"sizes::read"(i64 noundef %a0, i64 noundef %narrow.b, i64 noundef %a2)
  %u = add i64 %x, %y
  %v = add i64 %u, %z
  ret i64 %v
}
