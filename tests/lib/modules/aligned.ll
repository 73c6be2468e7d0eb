@static.0 = private unnamed_addr constant [16 x i8] c"abcdefghijklmnop", align 4

; Each function below loads a number of each length at a place that it is given or makes, `align 1` as far as LLVM knows. Which of these
; loads are aligned in C, tests/dist/translator says.

; Its calls hand over places that are multiples of 8, of 4, and 8 with 4 more.
define internal fastcc i64 @"aligned::four"(ptr noundef %a0) unnamed_addr #0 {
start:
  %x = load i64, ptr %a0, align 1
  %p = getelementptr i8, ptr %a0, i64 8
  %y = load i32, ptr %p, align 1
  %q = getelementptr i8, ptr %a0, i64 6
  %z = load i32, ptr %q, align 1
  %y.wide = zext i32 %y to i64
  %z.wide = zext i32 %z to i64
  %s = add i64 %x, %y.wide
  %t = add i64 %s, %z.wide
  ret i64 %t
}

; It hands its place on, 2 bytes further: the next one has what is left of the multiple of 8.
define internal fastcc i64 @"aligned::hands_on"(ptr noundef %a0) unnamed_addr #0 {
start:
  %p = getelementptr i8, ptr %a0, i64 2
  %x = tail call fastcc i64 @"aligned::two"(ptr noundef %p)
  %y = load i64, ptr %a0, align 1
  %s = add i64 %x, %y
  ret i64 %s
}

define internal fastcc i64 @"aligned::two"(ptr noundef %a0) unnamed_addr #0 {
start:
  %x = load i32, ptr %a0, align 1
  %y = load i16, ptr %a0, align 1
  %x.wide = zext i32 %x to i64
  %y.wide = zext i16 %y to i64
  %s = add i64 %x.wide, %y.wide
  ret i64 %s
}

; Bytes of C, which are anywhere; and one call of many that hands over an array.
define internal fastcc i32 @"aligned::any"(ptr noundef %a0) unnamed_addr #0 {
start:
  %x = load i32, ptr %a0, align 1
  ret i32 %x
}

; It calls itself, each time 4 bytes further.
define internal fastcc i64 @"aligned::again"(ptr noundef %a0, i64 noundef %a1) unnamed_addr #0 {
start:
  %is.last = icmp eq i64 %a1, 0
  br i1 %is.last, label %last.1, label %next.2

last.1:                                           ; preds = %start
  %x = load i64, ptr %a0, align 1
  ret i64 %x

next.2:                                           ; preds = %start
  %p = getelementptr i8, ptr %a0, i64 4
  %left = add i64 %a1, -1
  %y = tail call fastcc i64 @"aligned::again"(ptr noundef %p, i64 noundef %left)
  ret i64 %y
}

; A place that goes on by 2 in a loop, from a multiple of 4.
define internal fastcc i64 @"aligned::loop"(ptr noundef %a0, i64 noundef %a1) unnamed_addr #0 {
start:
  br label %loop.1

loop.1:                                           ; preds = %loop.1, %start
  %p = phi ptr [ %a0, %start ], [ %p.next, %loop.1 ]
  %k = phi i64 [ 0, %start ], [ %k.next, %loop.1 ]
  %s = phi i64 [ 0, %start ], [ %s.next, %loop.1 ]
  %x = load i32, ptr %p, align 1
  %x.wide = zext i32 %x to i64
  %s.next = add i64 %s, %x.wide
  %p.next = getelementptr i8, ptr %p, i64 2
  %k.next = add i64 %k, 1
  %more = icmp ult i64 %k.next, %a1
  br i1 %more, label %loop.1, label %done.2

done.2:                                           ; preds = %loop.1
  ret i64 %s.next
}

; Places that are moved by numbers: by what is known of each number.
define internal fastcc i64 @"aligned::moved"(ptr noundef %a0, i64 noundef %a1) unnamed_addr #0 {
start:
  %any = getelementptr i8, ptr %a0, i64 %a1
  %x0 = load i64, ptr %any, align 1
  %by.shl = shl i64 %a1, 2
  %p1 = getelementptr i8, ptr %a0, i64 %by.shl
  %x1 = load i64, ptr %p1, align 1
  %by.mul = mul i64 %a1, 6
  %p2 = getelementptr i8, ptr %a0, i64 %by.mul
  %x2 = load i64, ptr %p2, align 1
  %by.and = and i64 %a1, -8
  %p3 = getelementptr i8, ptr %a0, i64 %by.and
  %x3 = load i64, ptr %p3, align 1
  %by.add = add i64 %by.shl, 2
  %p4 = getelementptr i8, ptr %a0, i64 %by.add
  %x4 = load i64, ptr %p4, align 1
  %by.lshr = lshr i64 %by.shl, 1
  %p5 = getelementptr i8, ptr %a0, i64 %by.lshr
  %x5 = load i64, ptr %p5, align 1
  %narrow = trunc i64 %by.shl to i8
  %by.wide = zext i8 %narrow to i64
  %p6 = getelementptr i8, ptr %a0, i64 %by.wide
  %x6 = load i64, ptr %p6, align 1
  %y0 = add i64 %x0, %x1
  %y1 = add i64 %y0, %x2
  %y2 = add i64 %y1, %x3
  %y3 = add i64 %y2, %x4
  %y4 = add i64 %y3, %x5
  %y5 = add i64 %y4, %x6
  ret i64 %y5
}

; Either place is taken: one of 8 or one of 4, one of 4 or one of 1.
define internal fastcc i64 @"aligned::either"(ptr noundef %a0, ptr noundef %a1, ptr noundef %a2) unnamed_addr #0 {
start:
  %first = load i8, ptr %a0, align 1
  %is.odd = trunc i8 %first to i1
  %p = select i1 %is.odd, ptr %a0, ptr %a1
  %x = load i64, ptr %p, align 1
  %q = select i1 %is.odd, ptr %a2, ptr %a1
  %y = load i32, ptr %q, align 1
  %y.wide = zext i32 %y to i64
  %s = add i64 %x, %y.wide
  ret i64 %s
}

; A place that was a number, one that was in memory, one that a call gives, and one of a pair.
define internal fastcc i64 @"aligned::through"(ptr noundef %a0, ptr noundef %a1) unnamed_addr #0 {
start:
  %n = ptrtoint ptr %a0 to i64
  %m = add i64 %n, 4
  %p = inttoptr i64 %m to ptr
  %x0 = load i64, ptr %p, align 1
  %k = load i64, ptr %a1, align 1
  %q = inttoptr i64 %k to ptr
  %x1 = load i32, ptr %q, align 1
  %r = tail call fastcc ptr @"aligned::same"(ptr noundef %a0)
  %x2 = load i32, ptr %r, align 1
  %h = insertvalue { ptr, i64 } poison, ptr %a0, 0
  %w = insertvalue { ptr, i64 } %h, i64 1, 1
  %u = extractvalue { ptr, i64 } %w, 0
  %x3 = load i32, ptr %u, align 1
  %y1 = zext i32 %x1 to i64
  %y2 = zext i32 %x2 to i64
  %y3 = zext i32 %x3 to i64
  %z0 = add i64 %x0, %y1
  %z1 = add i64 %z0, %y2
  %z2 = add i64 %z1, %y3
  ret i64 %z2
}

define internal fastcc ptr @"aligned::same"(ptr noundef %a0) unnamed_addr #0 {
start:
  %p = getelementptr i8, ptr %a0, i64 0
  ret ptr %p
}

; Of a table, which is a multiple of 4, and an array of 8.
define internal fastcc i64 @"aligned::of_table"(ptr noundef %a0) unnamed_addr #0 {
start:
  %x = load i64, ptr %a0, align 1
  ret i64 %x
}

; Numbers of other lengths, stored to a multiple of 8.
define internal fastcc void @"aligned::stores"(ptr noundef %a0, i64 noundef %a1) unnamed_addr #0 {
start:
  store i64 %a1, ptr %a0, align 1
  %w48 = trunc i64 %a1 to i48
  %p = getelementptr i8, ptr %a0, i64 8
  store i48 %w48, ptr %p, align 1
  %w24 = trunc i64 %a1 to i24
  %q = getelementptr i8, ptr %a0, i64 14
  store i24 %w24, ptr %q, align 1
  %r = getelementptr i8, ptr %a0, i64 20
  store i64 %a1, ptr %r, align 4
  ret void
}

; Everything above, over bytes of C at any place and a struct of C. The result is a sum of all.
define i64 @dfu_aligned_all(ptr %a0, ptr %a1, i64 %a2) #0 {
start:
  %eight = alloca [128 x i8], align 8
  %four = alloca [32 x i8], align 4
  call void @llvm.memcpy.p0.p0.i64(ptr %eight, ptr %a0, i64 128, i1 false)
  call void @llvm.memcpy.p0.p0.i64(ptr %four, ptr %a0, i64 32, i1 false)
  %x0 = call fastcc i64 @"aligned::four"(ptr noundef %eight)
  %x1 = call fastcc i64 @"aligned::four"(ptr noundef %four)
  %p12 = getelementptr i8, ptr %eight, i64 12
  %x2 = call fastcc i64 @"aligned::four"(ptr noundef nonnull align 4 %p12)
  %x3 = call fastcc i64 @"aligned::hands_on"(ptr noundef %eight)
  %x4.n = call fastcc i32 @"aligned::any"(ptr noundef %eight)
  %x4 = zext i32 %x4.n to i64
  %x5.n = call fastcc i32 @"aligned::any"(ptr noundef %a0)
  %x5 = zext i32 %x5.n to i64
  %x6 = call fastcc i64 @"aligned::again"(ptr noundef %eight, i64 noundef 3)
  %x7 = call fastcc i64 @"aligned::loop"(ptr noundef %four, i64 noundef 5)
  %x8 = call fastcc i64 @"aligned::moved"(ptr noundef %eight, i64 noundef %a2)
  %x9 = call fastcc i64 @"aligned::either"(ptr noundef %eight, ptr noundef %four, ptr noundef %a0)
  %held = alloca i64, align 8
  %n = ptrtoint ptr %a0 to i64
  store i64 %n, ptr %held, align 8
  %xa = call fastcc i64 @"aligned::through"(ptr noundef %eight, ptr noundef %held)
  %xb = call fastcc i64 @"aligned::of_table"(ptr noundef @static.0)
  %xc = call fastcc i64 @"aligned::of_table"(ptr noundef %eight)
  call fastcc void @"aligned::stores"(ptr noundef %eight, i64 noundef %a2)
  %xd = load i64, ptr %eight, align 8
  %xe.n = load i32, ptr %a1, align 1
  %xe = zext i32 %xe.n to i64
  %xf = load i64, ptr %a1, align 1
  %y0 = add i64 %x0, %x1
  %y1 = add i64 %y0, %x2
  %y2 = add i64 %y1, %x3
  %y3 = add i64 %y2, %x4
  %y4 = add i64 %y3, %x5
  %y5 = add i64 %y4, %x6
  %y6 = add i64 %y5, %x7
  %y7 = add i64 %y6, %x8
  %y8 = add i64 %y7, %x9
  %y9 = add i64 %y8, %xa
  %ya = add i64 %y9, %xb
  %yb = add i64 %ya, %xc
  %yc = add i64 %yb, %xd
  %yd = add i64 %yc, %xe
  %ye = add i64 %yd, %xf
  ret i64 %ye
}
