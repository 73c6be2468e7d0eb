@switch.table.rows = private unnamed_addr constant [4 x i32] [i32 7, i32 -1, i32 65536, i32 0], align 4
@"switch.table.of<two>" = private unnamed_addr constant [3 x i16] [i16 1, i16 -2, i16 300], align 2

; Two numbers change places so many times. Their difference is the result.
define i64 @dfu_flow_swap(i64 %a0, i64 %a1, i64 %a2) #0 {
start:
  br label %loop.1

loop.1:                                           ; preds = %loop.1, %start
  %x = phi i64 [ %a0, %start ], [ %y, %loop.1 ]
  %y = phi i64 [ %a1, %start ], [ %x, %loop.1 ]
  %k = phi i64 [ 0, %start ], [ %k.next, %loop.1 ]
  %k.next = add i64 %k, 1
  %more = icmp ult i64 %k, %a2
  br i1 %more, label %loop.1, label %done.2

done.2:                                           ; preds = %loop.1
  %r0 = sub i64 %x, %y
  ret i64 %r0
}

; A loop whose next number is a sum of two that change with it: Fibonacci's.
define i64 @dfu_flow_rows(i64 %a0) #0 {
start:
  br label %loop.1

loop.1:                                           ; preds = %loop.1, %start
  %x = phi i64 [ 0, %start ], [ %y, %loop.1 ]
  %y = phi i64 [ 1, %start ], [ %sum, %loop.1 ]
  %k = phi i64 [ %a0, %start ], [ %k.next, %loop.1 ]
  %sum = add i64 %x, %y
  %k.next = add i64 %k, -1
  %done = icmp eq i64 %k, 0
  br i1 %done, label %done.2, label %loop.1

done.2:                                           ; preds = %loop.1
  ret i64 %x
}

; Which of two empty ways is taken says which number it is; where both ways lead to one place, and where one of them comes next.
define i32 @dfu_flow_ways(i32 %a0) #0 {
start:
  %is.two = icmp eq i32 %a0, 2
  br i1 %is.two, label %join.3, label %other.1

other.1:                                          ; preds = %start
  %is.three = icmp eq i32 %a0, 3
  br i1 %is.three, label %empty.2, label %next.4

empty.2:                                          ; preds = %other.1
  br label %join.3

join.3:                                           ; preds = %empty.2, %start
  %x = phi i32 [ 20, %start ], [ 30, %empty.2 ]
  br label %last.5

next.4:                                           ; preds = %other.1
  switch i32 %a0, label %last.5 [
    i32 -1, label %minus.6
    i32 4, label %last.5
    i32 5, label %five.7
    i32 6, label %five.7
  ]

minus.6:                                          ; preds = %next.4
  br label %last.5

five.7:                                           ; preds = %next.4, %next.4
  br label %again.8

again.8:                                          ; preds = %five.7
  br label %last.5

last.5:                                           ; preds = %again.8, %minus.6, %next.4, %next.4, %join.3
  %y = phi i32 [ %x, %join.3 ], [ 40, %next.4 ], [ 40, %next.4 ], [ 10, %minus.6 ], [ %a0, %again.8 ]
  %z = phi i32 [ 1, %join.3 ], [ poison, %next.4 ], [ poison, %next.4 ], [ 2, %minus.6 ], [ 3, %again.8 ]
  %is.forty = icmp eq i32 %y, 40
  %w = select i1 %is.forty, i32 0, i32 %z
  %u = add i32 %y, %w
  ret i32 %u
}

define internal fastcc void @"flow::add_to"(ptr noundef captures(none) %a0, i8 noundef %a1) unnamed_addr #0 {
start:
  %x = load i8, ptr %a0, align 1
  %y = add i8 %x, %a1
  store i8 %y, ptr %a0, align 1
  ret void
}

; A load stands before what is written next, and is read behind it: by a store, by a copy and by a call.
define i64 @dfu_flow_order(ptr %a0) #0 {
start:
  %before = load i8, ptr %a0, align 1
  store i8 9, ptr %a0, align 1
  %p1 = getelementptr inbounds nuw i8, ptr %a0, i64 1
  %second = load i8, ptr %p1, align 1
  tail call void @llvm.memmove.p0.p0.i64(ptr %p1, ptr %a0, i64 2, i1 false)
  %p2 = getelementptr i8, ptr %a0, i64 2
  %third = load i8, ptr %p2, align 1
  tail call fastcc void @"flow::add_to"(ptr noundef nonnull %p2, i8 noundef 5)
  %now = load i8, ptr %p2, align 1
  %x0 = zext i8 %before to i64
  %x1 = zext i8 %second to i64
  %x2 = zext i8 %third to i64
  %x3 = zext i8 %now to i64
  %y0 = mul nuw i64 %x0, 1000000
  %y1 = mul nuw i64 %x1, 10000
  %y2 = mul nuw i64 %x2, 100
  %z0 = add nuw i64 %y0, %y1
  %z1 = add nuw i64 %y2, %x3
  %z2 = add nuw i64 %z0, %z1
  ret i64 %z2
}

; The same of numbers of 16, 32 and 64 bits.
define i64 @dfu_flow_wide_order(ptr %a0) #0 {
start:
  %before = load i32, ptr %a0, align 1
  store i32 9, ptr %a0, align 1
  %p1 = getelementptr i8, ptr %a0, i64 4
  %second = load i16, ptr %p1, align 1
  tail call void @llvm.memmove.p0.p0.i64(ptr %p1, ptr %a0, i64 4, i1 false)
  %third = load i64, ptr %a0, align 1
  tail call fastcc void @"flow::add_to"(ptr noundef nonnull %a0, i8 noundef 5)
  %now = load i32, ptr %a0, align 1
  %x0 = zext i32 %before to i64
  %x1 = zext i16 %second to i64
  %x2 = lshr i64 %third, 32
  %x3 = zext i32 %now to i64
  %y0 = mul nuw i64 %x0, 1000000
  %y1 = mul nuw i64 %x1, 10000
  %y2 = mul nuw i64 %x2, 100
  %z0 = add nuw i64 %y0, %y1
  %z1 = add nuw i64 %y2, %x3
  %z2 = add nuw i64 %z0, %z1
  ret i64 %z2
}

; Two arrays that are in use at once, across blocks, and two that never are.
define i32 @dfu_flow_arrays(i32 %a0) #0 {
start:
  %one = alloca [8 x i8], align 8
  %two = alloca [8 x i8], align 4
  %three = alloca [4 x i8], align 2
  call void @llvm.lifetime.start.p0(ptr nonnull %one)
  call void @llvm.lifetime.start.p0(ptr nonnull %three)
  store i32 %a0, ptr %one, align 8
  store i16 11, ptr %three, align 2
  %is.odd = trunc i32 %a0 to i1
  br i1 %is.odd, label %odd.1, label %even.2

odd.1:                                            ; preds = %start
  call void @llvm.lifetime.start.p0(ptr nonnull %two)
  store i32 5, ptr %two, align 4
  %p = getelementptr i8, ptr %one, i64 4
  store i32 6, ptr %p, align 4
  %x = load i32, ptr %two, align 4
  call void @llvm.lifetime.end.p0(ptr nonnull %two)
  %y = load i32, ptr %one, align 8
  %h = load i16, ptr %three, align 2
  %w = zext i16 %h to i32
  %z = add i32 %x, %y
  %zw = add i32 %z, %w
  call void @llvm.lifetime.end.p0(ptr nonnull %one)
  call void @llvm.lifetime.end.p0(ptr nonnull %three)
  ret i32 %zw

even.2:                                           ; preds = %start
  %q = load i32, ptr %one, align 8
  call void @llvm.lifetime.end.p0(ptr nonnull %one)
  call void @llvm.lifetime.start.p0(ptr nonnull %two)
  store i32 %q, ptr %two, align 4
  %r = load i32, ptr %two, align 4
  call void @llvm.lifetime.end.p0(ptr nonnull %two)
  %v = load i16, ptr %three, align 2
  call void @llvm.lifetime.end.p0(ptr nonnull %three)
  %u = zext i16 %v to i32
  %t = sub i32 %r, %u
  ret i32 %t
}

; Numbers of all widths at places that are multiples of nothing.
define i32 @dfu_flow_stores(ptr %a0, i64 %a1) #0 {
start:
  %w24 = trunc i64 %a1 to i24
  store i24 %w24, ptr %a0, align 1
  %p1 = getelementptr i8, ptr %a0, i64 5
  %w48 = trunc i64 %a1 to i48
  store i48 %w48, ptr %p1, align 1
  %p2 = getelementptr i8, ptr %a0, i64 13
  store i64 %a1, ptr %p2, align 1
  %p3 = getelementptr i8, ptr %a0, i64 23
  %w16 = trunc i64 %a1 to i16
  store i16 %w16, ptr %p3, align 1
  %p4 = getelementptr i8, ptr %a0, i64 27
  store i32 -2, ptr %p4, align 1
  %back24 = load i24, ptr %a0, align 1
  %back48 = load i48, ptr %p1, align 1
  %wide24 = zext i24 %back24 to i64
  %wide48 = zext i48 %back48 to i64
  %low = and i64 %wide48, 16777215
  %same = icmp eq i64 %wide24, %low
  %back16 = load i16, ptr %p3, align 1
  %wide16 = zext i16 %back16 to i32
  %r = select i1 %same, i32 %wide16, i32 0
  ret i32 %r
}

define internal fastcc { i64, i1 } @"flow::product"(i64 noundef %a0, i64 noundef %a1) unnamed_addr #0 {
start:
  %x = tail call { i64, i1 } @llvm.umul.with.overflow.i64(i64 %a0, i64 %a1)
  %x.fr = freeze { i64, i1 } %x
  ret { i64, i1 } %x.fr
}

define internal fastcc { i8, ptr } @"flow::pair"(i8 noundef %a0, ptr %a1) unnamed_addr #0 {
start:
  %is.one = icmp eq i8 %a0, 1
  br i1 %is.one, label %one.1, label %more.2

one.1:                                            ; preds = %start
  %h = insertvalue { i8, ptr } poison, i8 7, 0
  %w = insertvalue { i8, ptr } %h, ptr %a1, 1
  br label %join.4

more.2:                                           ; preds = %start
  %is.two = icmp eq i8 %a0, 2
  br i1 %is.two, label %join.4, label %three.3

three.3:                                          ; preds = %more.2
  %z = insertvalue { i8, ptr } zeroinitializer, i8 %a0, 0
  br label %join.4

join.4:                                           ; preds = %three.3, %more.2, %one.1
  %x = phi { i8, ptr } [ zeroinitializer, %more.2 ], [ %w, %one.1 ], [ %z, %three.3 ]
  %y = phi { i8, ptr } [ zeroinitializer, %more.2 ], [ { i8 7, ptr null }, %one.1 ], [ %z, %three.3 ]
  %a = extractvalue { i8, ptr } %x, 1
  %b = insertvalue { i8, ptr } %y, ptr %a, 1
  ret { i8, ptr } %b
}

; The product of two numbers, or 1 where it is too large.
define i64 @dfu_flow_product(i64 %a0, i64 %a1) #0 {
start:
  %x = tail call fastcc { i64, i1 } @"flow::product"(i64 noundef %a0, i64 noundef %a1)
  %p = extractvalue { i64, i1 } %x, 0
  %over = extractvalue { i64, i1 } %x, 1
  %r = select i1 %over, i64 1, i64 %p
  ret i64 %r
}

; What a pair has: 10 times its number, and 1 where its pointer is none.
define i32 @dfu_flow_pair(i8 %a0, ptr %a1) #0 {
start:
  %x = tail call fastcc { i8, ptr } @"flow::pair"(i8 noundef %a0, ptr %a1)
  %n = extractvalue { i8, ptr } %x, 0
  %p = extractvalue { i8, ptr } %x, 1
  %none = icmp eq ptr %p, null
  %w = zext i8 %n to i32
  %t = mul nuw nsw i32 %w, 10
  %u = zext i1 %none to i32
  %r = or disjoint i32 %t, %u
  ret i32 %r
}

; A row of each table, by a number under 3.
define i64 @dfu_flow_tables(i64 %a0) #0 {
start:
  %p = getelementptr inbounds nuw i32, ptr @switch.table.rows, i64 %a0
  %x = load i32, ptr %p, align 4
  %q = getelementptr inbounds nuw i16, ptr @"switch.table.of<two>", i64 %a0
  %y = load i16, ptr %q, align 2
  %w = zext i32 %x to i64
  %v = zext i16 %y to i64
  %s = shl i64 %v, 32
  %r = or i64 %s, %w
  ret i64 %r
}

; A pointer that stands in memory as a number of 64 bits, and what is there.
define i32 @dfu_flow_pointer(ptr %a0, ptr %a1, i64 %a2) #0 {
start:
  %n = ptrtoint ptr %a1 to i64
  store i64 %n, ptr %a0, align 8
  %m = load i64, ptr %a0, align 8
  %p = inttoptr i64 %m to ptr
  %q = getelementptr i8, ptr %p, i64 %a2
  %back = getelementptr i8, ptr %q, i64 -1
  %x = load i8, ptr %back, align 1
  %zero = tail call i64 @llvm.umin.i64(i64 %a2, i64 0)
  call void @llvm.memset.p0.i64(ptr %p, i8 1, i64 %zero, i1 false)
  call void @llvm.memcpy.p0.p0.i64(ptr %a0, ptr %p, i64 %a2, i1 false)
  %w = zext i8 %x to i32
  ret i32 %w
}

; Arrays without marks: two of which one is in use after the other, two of which one is read in the next turn of a loop again, and one that
; is read by who has its place as a number.
define i32 @dfu_flow_touches(i32 %a0) #0 {
start:
  %first = alloca [8 x i8], align 8
  %kept = alloca [8 x i8], align 8
  %later = alloca [4 x i8], align 4
  %round = alloca [4 x i8], align 4
  %turn = alloca [4 x i8], align 4
  store i32 %a0, ptr %first, align 8
  %x = load i32, ptr %first, align 8
  store i32 7, ptr %kept, align 8
  %place = ptrtoint ptr %kept to i64
  store i32 5, ptr %later, align 4
  %y = load i32, ptr %later, align 4
  store i32 3, ptr %round, align 4
  br label %loop.1

loop.1:                                           ; preds = %next.4, %start
  %k = phi i32 [ 0, %start ], [ %k.next, %next.4 ]
  %sum = phi i32 [ 0, %start ], [ %sum.next, %next.4 ]
  %r = load i32, ptr %round, align 4
  %is.odd = trunc i32 %a0 to i1
  br i1 %is.odd, label %next.4, label %even.3

even.3:                                           ; preds = %loop.1
  store i32 %k, ptr %turn, align 4
  %t = load i32, ptr %turn, align 4
  br label %next.4

next.4:                                           ; preds = %even.3, %loop.1
  %u = phi i32 [ 0, %loop.1 ], [ %t, %even.3 ]
  %rt = add i32 %r, %u
  %sum.next = add i32 %sum, %rt
  %k.next = add i32 %k, 1
  %is.end = icmp eq i32 %k.next, 4
  br i1 %is.end, label %done.2, label %loop.1

done.2:                                           ; preds = %next.4
  %q = inttoptr i64 %place to ptr
  %z = load i32, ptr %q, align 4
  %xy = add i32 %x, %y
  %zs = add i32 %z, %sum.next
  %r.all = add i32 %xy, %zs
  ret i32 %r.all
}
