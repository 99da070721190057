; ModuleID = 'calc.c'
source_filename = "calc.c"
target datalayout = "e-m:e-p270:32:32-p271:32:32-p272:64:64-i64:64-i128:128-f80:128-n8:16:32:64-S128"
target triple = "x86_64-pc-linux-gnu"

%struct.parser = type { ptr, %struct.token, %struct.code, %struct.scope, i32, ptr, [1 x %struct.__jmp_buf_tag] }
%struct.token = type { i32, i64, [16 x i8], i8 }
%struct.code = type { ptr, i32, i32 }
%struct.scope = type { [64 x [16 x i8]], i32 }
%struct.__jmp_buf_tag = type { [8 x i64], i32, %struct.__sigset_t }
%struct.__sigset_t = type { [16 x i64] }
%struct.machine = type { [256 x i64], i32, [64 x i64], i64, ptr }
%struct.instr = type { i8, i32, i64 }

@main.p = internal global %struct.parser zeroinitializer, align 8
@main.m = internal global %struct.machine zeroinitializer, align 8
@.str = private unnamed_addr constant [17 x i8] c"number too large\00", align 1
@.str.1 = private unnamed_addr constant [14 x i8] c"name too long\00", align 1
@.str.2 = private unnamed_addr constant [3 x i8] c"if\00", align 1
@.str.3 = private unnamed_addr constant [6 x i8] c"while\00", align 1
@.str.4 = private unnamed_addr constant [6 x i8] c"print\00", align 1
@.str.5 = private unnamed_addr constant [4 x i8] c"let\00", align 1
@.str.6 = private unnamed_addr constant [17 x i8] c"a name is wanted\00", align 1
@.str.7 = private unnamed_addr constant [5 x i8] c"else\00", align 1
@.str.8 = private unnamed_addr constant [19 x i8] c"a block has no end\00", align 1
@.str.9 = private unnamed_addr constant [9 x i8] c"too deep\00", align 1
@.str.10 = private unnamed_addr constant [18 x i8] c"a value is wanted\00", align 1
@.str.11 = private unnamed_addr constant [23 x i8] c"another mark is wanted\00", align 1
@.str.12 = private unnamed_addr constant [15 x i8] c"too many names\00", align 1
@.str.13 = private unnamed_addr constant [10 x i8] c"no memory\00", align 1
@.str.14 = private unnamed_addr constant [15 x i8] c"too many steps\00", align 1
@.str.15 = private unnamed_addr constant [18 x i8] c"the stack is full\00", align 1
@.str.16 = private unnamed_addr constant [19 x i8] c"the stack is empty\00", align 1
@.str.17 = private unnamed_addr constant [17 x i8] c"division by zero\00", align 1
@.str.18 = private unnamed_addr constant [3 x i8] c"! \00", align 1

; Function Attrs: noinline nounwind uwtable
define dso_local i32 @main() #0 {
  %1 = alloca i32, align 4
  %2 = alloca [512 x i8], align 16
  %3 = alloca i32, align 4
  store i32 0, ptr %1, align 4
  store i32 0, ptr %3, align 4
  br label %4

4:                                                ; preds = %22, %0
  %5 = getelementptr inbounds [512 x i8], ptr %2, i64 0, i64 0
  %6 = call i32 @read_line(ptr noundef %5, i32 noundef 512)
  %7 = icmp ne i32 %6, 0
  br i1 %7, label %8, label %23

8:                                                ; preds = %4
  store i64 0, ptr getelementptr inbounds (%struct.machine, ptr @main.m, i32 0, i32 3), align 8
  %9 = getelementptr inbounds [512 x i8], ptr %2, i64 0, i64 0
  %10 = call i32 @compile(ptr noundef @main.p, ptr noundef %9)
  %11 = icmp ne i32 %10, 0
  br i1 %11, label %12, label %13

12:                                               ; preds = %8
  call void @run(ptr noundef @main.m, ptr noundef getelementptr inbounds (%struct.parser, ptr @main.p, i32 0, i32 2))
  br label %15

13:                                               ; preds = %8
  %14 = load ptr, ptr getelementptr inbounds (%struct.parser, ptr @main.p, i32 0, i32 5), align 8
  store ptr %14, ptr getelementptr inbounds (%struct.machine, ptr @main.m, i32 0, i32 4), align 8
  br label %15

15:                                               ; preds = %13, %12
  %16 = load ptr, ptr getelementptr inbounds (%struct.machine, ptr @main.m, i32 0, i32 4), align 8
  %17 = icmp ne ptr %16, null
  br i1 %17, label %18, label %22

18:                                               ; preds = %15
  %19 = load ptr, ptr getelementptr inbounds (%struct.machine, ptr @main.m, i32 0, i32 4), align 8
  call void @put_fault(ptr noundef %19)
  %20 = load i32, ptr %3, align 4
  %21 = add nsw i32 %20, 1
  store i32 %21, ptr %3, align 4
  br label %22

22:                                               ; preds = %18, %15
  br label %4, !llvm.loop !6

23:                                               ; preds = %4
  %24 = load ptr, ptr getelementptr inbounds (%struct.parser, ptr @main.p, i32 0, i32 2), align 8
  call void @free(ptr noundef %24) #7
  %25 = load i32, ptr %3, align 4
  %26 = icmp ne i32 %25, 0
  %27 = zext i1 %26 to i64
  %28 = select i1 %26, i32 1, i32 0
  ret i32 %28
}

; Function Attrs: noinline nounwind uwtable
define internal i32 @read_line(ptr noundef %0, i32 noundef %1) #0 {
  %3 = alloca i32, align 4
  %4 = alloca ptr, align 8
  %5 = alloca i32, align 4
  %6 = alloca i32, align 4
  %7 = alloca i32, align 4
  store ptr %0, ptr %4, align 8
  store i32 %1, ptr %5, align 4
  store i32 0, ptr %6, align 4
  %8 = call i32 @getchar()
  store i32 %8, ptr %7, align 4
  %9 = load i32, ptr %7, align 4
  %10 = icmp slt i32 %9, 0
  br i1 %10, label %11, label %12

11:                                               ; preds = %2
  store i32 0, ptr %3, align 4
  br label %41

12:                                               ; preds = %2
  br label %13

13:                                               ; preds = %34, %12
  %14 = load i32, ptr %7, align 4
  %15 = icmp sge i32 %14, 0
  br i1 %15, label %16, label %19

16:                                               ; preds = %13
  %17 = load i32, ptr %7, align 4
  %18 = icmp ne i32 %17, 10
  br label %19

19:                                               ; preds = %16, %13
  %20 = phi i1 [ false, %13 ], [ %18, %16 ]
  br i1 %20, label %21, label %36

21:                                               ; preds = %19
  %22 = load i32, ptr %6, align 4
  %23 = load i32, ptr %5, align 4
  %24 = sub nsw i32 %23, 1
  %25 = icmp slt i32 %22, %24
  br i1 %25, label %26, label %34

26:                                               ; preds = %21
  %27 = load i32, ptr %7, align 4
  %28 = trunc i32 %27 to i8
  %29 = load ptr, ptr %4, align 8
  %30 = load i32, ptr %6, align 4
  %31 = add nsw i32 %30, 1
  store i32 %31, ptr %6, align 4
  %32 = sext i32 %30 to i64
  %33 = getelementptr inbounds i8, ptr %29, i64 %32
  store i8 %28, ptr %33, align 1
  br label %34

34:                                               ; preds = %26, %21
  %35 = call i32 @getchar()
  store i32 %35, ptr %7, align 4
  br label %13, !llvm.loop !8

36:                                               ; preds = %19
  %37 = load ptr, ptr %4, align 8
  %38 = load i32, ptr %6, align 4
  %39 = sext i32 %38 to i64
  %40 = getelementptr inbounds i8, ptr %37, i64 %39
  store i8 0, ptr %40, align 1
  store i32 1, ptr %3, align 4
  br label %41

41:                                               ; preds = %36, %11
  %42 = load i32, ptr %3, align 4
  ret i32 %42
}

; Function Attrs: noinline nounwind uwtable
define internal i32 @compile(ptr noundef %0, ptr noundef %1) #0 {
  %3 = alloca i32, align 4
  %4 = alloca ptr, align 8
  %5 = alloca ptr, align 8
  store ptr %0, ptr %4, align 8
  store ptr %1, ptr %5, align 8
  %6 = load ptr, ptr %5, align 8
  %7 = load ptr, ptr %4, align 8
  %8 = getelementptr inbounds %struct.parser, ptr %7, i32 0, i32 0
  store ptr %6, ptr %8, align 8
  %9 = load ptr, ptr %4, align 8
  %10 = getelementptr inbounds %struct.parser, ptr %9, i32 0, i32 4
  store i32 0, ptr %10, align 4
  %11 = load ptr, ptr %4, align 8
  %12 = getelementptr inbounds %struct.parser, ptr %11, i32 0, i32 5
  store ptr null, ptr %12, align 8
  %13 = load ptr, ptr %4, align 8
  %14 = getelementptr inbounds %struct.parser, ptr %13, i32 0, i32 2
  %15 = getelementptr inbounds %struct.code, ptr %14, i32 0, i32 1
  store i32 0, ptr %15, align 8
  %16 = load ptr, ptr %4, align 8
  %17 = getelementptr inbounds %struct.parser, ptr %16, i32 0, i32 6
  %18 = getelementptr inbounds [1 x %struct.__jmp_buf_tag], ptr %17, i64 0, i64 0
  %19 = call i32 @_setjmp(ptr noundef %18) #8
  %20 = icmp ne i32 %19, 0
  br i1 %20, label %21, label %22

21:                                               ; preds = %2
  store i32 0, ptr %3, align 4
  br label %35

22:                                               ; preds = %2
  %23 = load ptr, ptr %4, align 8
  call void @step(ptr noundef %23)
  br label %24

24:                                               ; preds = %30, %22
  %25 = load ptr, ptr %4, align 8
  %26 = getelementptr inbounds %struct.parser, ptr %25, i32 0, i32 1
  %27 = getelementptr inbounds %struct.token, ptr %26, i32 0, i32 0
  %28 = load i32, ptr %27, align 8
  %29 = icmp ne i32 %28, 0
  br i1 %29, label %30, label %32

30:                                               ; preds = %24
  %31 = load ptr, ptr %4, align 8
  call void @statement(ptr noundef %31)
  br label %24, !llvm.loop !9

32:                                               ; preds = %24
  %33 = load ptr, ptr %4, align 8
  %34 = call i32 @emit(ptr noundef %33, i32 noundef 18, i32 noundef 0, i64 noundef 0)
  store i32 1, ptr %3, align 4
  br label %35

35:                                               ; preds = %32, %21
  %36 = load i32, ptr %3, align 4
  ret i32 %36
}

; Function Attrs: noinline nounwind uwtable
define internal void @run(ptr noundef %0, ptr noundef %1) #0 {
  %3 = alloca ptr, align 8
  %4 = alloca ptr, align 8
  %5 = alloca i32, align 4
  %6 = alloca ptr, align 8
  %7 = alloca i64, align 8
  store ptr %0, ptr %3, align 8
  store ptr %1, ptr %4, align 8
  store i32 0, ptr %5, align 4
  %8 = load ptr, ptr %3, align 8
  %9 = getelementptr inbounds %struct.machine, ptr %8, i32 0, i32 1
  store i32 0, ptr %9, align 8
  %10 = load ptr, ptr %3, align 8
  %11 = getelementptr inbounds %struct.machine, ptr %10, i32 0, i32 4
  store ptr null, ptr %11, align 8
  br label %12

12:                                               ; preds = %112, %2
  %13 = load ptr, ptr %3, align 8
  %14 = getelementptr inbounds %struct.machine, ptr %13, i32 0, i32 4
  %15 = load ptr, ptr %14, align 8
  %16 = icmp ne ptr %15, null
  br i1 %16, label %22, label %17

17:                                               ; preds = %12
  %18 = load ptr, ptr %3, align 8
  %19 = getelementptr inbounds %struct.machine, ptr %18, i32 0, i32 3
  %20 = load i64, ptr %19, align 8
  %21 = icmp ult i64 %20, 1000000
  br label %22

22:                                               ; preds = %17, %12
  %23 = phi i1 [ false, %12 ], [ %21, %17 ]
  br i1 %23, label %24, label %113

24:                                               ; preds = %22
  %25 = load ptr, ptr %4, align 8
  %26 = getelementptr inbounds %struct.code, ptr %25, i32 0, i32 0
  %27 = load ptr, ptr %26, align 8
  %28 = load i32, ptr %5, align 4
  %29 = add nsw i32 %28, 1
  store i32 %29, ptr %5, align 4
  %30 = sext i32 %28 to i64
  %31 = getelementptr inbounds %struct.instr, ptr %27, i64 %30
  store ptr %31, ptr %6, align 8
  %32 = load ptr, ptr %3, align 8
  %33 = getelementptr inbounds %struct.machine, ptr %32, i32 0, i32 3
  %34 = load i64, ptr %33, align 8
  %35 = add i64 %34, 1
  store i64 %35, ptr %33, align 8
  %36 = load ptr, ptr %6, align 8
  %37 = getelementptr inbounds %struct.instr, ptr %36, i32 0, i32 0
  %38 = load i8, ptr %37, align 8
  %39 = zext i8 %38 to i32
  switch i32 %39, label %99 [
    i32 0, label %40
    i32 1, label %45
    i32 2, label %55
    i32 8, label %65
    i32 9, label %70
    i32 14, label %78
    i32 15, label %82
    i32 16, label %91
    i32 17, label %95
    i32 18, label %98
  ]

40:                                               ; preds = %24
  %41 = load ptr, ptr %3, align 8
  %42 = load ptr, ptr %6, align 8
  %43 = getelementptr inbounds %struct.instr, ptr %42, i32 0, i32 2
  %44 = load i64, ptr %43, align 8
  call void @push(ptr noundef %41, i64 noundef %44)
  br label %112

45:                                               ; preds = %24
  %46 = load ptr, ptr %3, align 8
  %47 = load ptr, ptr %3, align 8
  %48 = getelementptr inbounds %struct.machine, ptr %47, i32 0, i32 2
  %49 = load ptr, ptr %6, align 8
  %50 = getelementptr inbounds %struct.instr, ptr %49, i32 0, i32 1
  %51 = load i32, ptr %50, align 4
  %52 = sext i32 %51 to i64
  %53 = getelementptr inbounds [64 x i64], ptr %48, i64 0, i64 %52
  %54 = load i64, ptr %53, align 8
  call void @push(ptr noundef %46, i64 noundef %54)
  br label %112

55:                                               ; preds = %24
  %56 = load ptr, ptr %3, align 8
  %57 = call i64 @pop(ptr noundef %56)
  %58 = load ptr, ptr %3, align 8
  %59 = getelementptr inbounds %struct.machine, ptr %58, i32 0, i32 2
  %60 = load ptr, ptr %6, align 8
  %61 = getelementptr inbounds %struct.instr, ptr %60, i32 0, i32 1
  %62 = load i32, ptr %61, align 4
  %63 = sext i32 %62 to i64
  %64 = getelementptr inbounds [64 x i64], ptr %59, i64 0, i64 %63
  store i64 %57, ptr %64, align 8
  br label %112

65:                                               ; preds = %24
  %66 = load ptr, ptr %3, align 8
  %67 = load ptr, ptr %3, align 8
  %68 = call i64 @pop(ptr noundef %67)
  %69 = sub i64 0, %68
  call void @push(ptr noundef %66, i64 noundef %69)
  br label %112

70:                                               ; preds = %24
  %71 = load ptr, ptr %3, align 8
  %72 = load ptr, ptr %3, align 8
  %73 = call i64 @pop(ptr noundef %72)
  %74 = icmp ne i64 %73, 0
  %75 = xor i1 %74, true
  %76 = zext i1 %75 to i32
  %77 = sext i32 %76 to i64
  call void @push(ptr noundef %71, i64 noundef %77)
  br label %112

78:                                               ; preds = %24
  %79 = load ptr, ptr %6, align 8
  %80 = getelementptr inbounds %struct.instr, ptr %79, i32 0, i32 1
  %81 = load i32, ptr %80, align 4
  store i32 %81, ptr %5, align 4
  br label %112

82:                                               ; preds = %24
  %83 = load ptr, ptr %3, align 8
  %84 = call i64 @pop(ptr noundef %83)
  %85 = icmp ne i64 %84, 0
  br i1 %85, label %90, label %86

86:                                               ; preds = %82
  %87 = load ptr, ptr %6, align 8
  %88 = getelementptr inbounds %struct.instr, ptr %87, i32 0, i32 1
  %89 = load i32, ptr %88, align 4
  store i32 %89, ptr %5, align 4
  br label %90

90:                                               ; preds = %86, %82
  br label %112

91:                                               ; preds = %24
  %92 = load ptr, ptr %3, align 8
  %93 = call i64 @pop(ptr noundef %92)
  call void @put_long(i64 noundef %93)
  %94 = call i32 @putchar(i32 noundef 10)
  br label %112

95:                                               ; preds = %24
  %96 = load ptr, ptr %3, align 8
  %97 = call i64 @pop(ptr noundef %96)
  br label %112

98:                                               ; preds = %24
  br label %121

99:                                               ; preds = %24
  %100 = load ptr, ptr %3, align 8
  %101 = call i64 @pop(ptr noundef %100)
  store i64 %101, ptr %7, align 8
  %102 = load ptr, ptr %3, align 8
  %103 = load ptr, ptr %3, align 8
  %104 = load ptr, ptr %6, align 8
  %105 = getelementptr inbounds %struct.instr, ptr %104, i32 0, i32 0
  %106 = load i8, ptr %105, align 8
  %107 = zext i8 %106 to i32
  %108 = load ptr, ptr %3, align 8
  %109 = call i64 @pop(ptr noundef %108)
  %110 = load i64, ptr %7, align 8
  %111 = call i64 @applied(ptr noundef %103, i32 noundef %107, i64 noundef %109, i64 noundef %110)
  call void @push(ptr noundef %102, i64 noundef %111)
  br label %112

112:                                              ; preds = %99, %95, %91, %90, %78, %70, %65, %55, %45, %40
  br label %12, !llvm.loop !10

113:                                              ; preds = %22
  %114 = load ptr, ptr %3, align 8
  %115 = getelementptr inbounds %struct.machine, ptr %114, i32 0, i32 4
  %116 = load ptr, ptr %115, align 8
  %117 = icmp ne ptr %116, null
  br i1 %117, label %121, label %118

118:                                              ; preds = %113
  %119 = load ptr, ptr %3, align 8
  %120 = getelementptr inbounds %struct.machine, ptr %119, i32 0, i32 4
  store ptr @.str.14, ptr %120, align 8
  br label %121

121:                                              ; preds = %98, %118, %113
  ret void
}

; Function Attrs: noinline nounwind uwtable
define internal void @put_fault(ptr noundef %0) #0 {
  %2 = alloca ptr, align 8
  store ptr %0, ptr %2, align 8
  call void @put_text(ptr noundef @.str.18)
  %3 = load ptr, ptr %2, align 8
  call void @put_text(ptr noundef %3)
  %4 = call i32 @putchar(i32 noundef 10)
  ret void
}

; Function Attrs: nounwind
declare void @free(ptr noundef) #1

declare i32 @getchar() #2

; Function Attrs: nounwind returns_twice
declare i32 @_setjmp(ptr noundef) #3

; Function Attrs: noinline nounwind uwtable
define internal void @step(ptr noundef %0) #0 {
  %2 = alloca ptr, align 8
  store ptr %0, ptr %2, align 8
  br label %3

3:                                                ; preds = %19, %1
  %4 = load ptr, ptr %2, align 8
  %5 = getelementptr inbounds %struct.parser, ptr %4, i32 0, i32 0
  %6 = load ptr, ptr %5, align 8
  %7 = load i8, ptr %6, align 1
  %8 = sext i8 %7 to i32
  %9 = icmp eq i32 %8, 32
  br i1 %9, label %17, label %10

10:                                               ; preds = %3
  %11 = load ptr, ptr %2, align 8
  %12 = getelementptr inbounds %struct.parser, ptr %11, i32 0, i32 0
  %13 = load ptr, ptr %12, align 8
  %14 = load i8, ptr %13, align 1
  %15 = sext i8 %14 to i32
  %16 = icmp eq i32 %15, 9
  br label %17

17:                                               ; preds = %10, %3
  %18 = phi i1 [ true, %3 ], [ %16, %10 ]
  br i1 %18, label %19, label %24

19:                                               ; preds = %17
  %20 = load ptr, ptr %2, align 8
  %21 = getelementptr inbounds %struct.parser, ptr %20, i32 0, i32 0
  %22 = load ptr, ptr %21, align 8
  %23 = getelementptr inbounds i8, ptr %22, i32 1
  store ptr %23, ptr %21, align 8
  br label %3, !llvm.loop !11

24:                                               ; preds = %17
  %25 = load ptr, ptr %2, align 8
  %26 = getelementptr inbounds %struct.parser, ptr %25, i32 0, i32 0
  %27 = load ptr, ptr %26, align 8
  %28 = load i8, ptr %27, align 1
  %29 = sext i8 %28 to i32
  %30 = icmp eq i32 %29, 0
  br i1 %30, label %31, label %35

31:                                               ; preds = %24
  %32 = load ptr, ptr %2, align 8
  %33 = getelementptr inbounds %struct.parser, ptr %32, i32 0, i32 1
  %34 = getelementptr inbounds %struct.token, ptr %33, i32 0, i32 0
  store i32 0, ptr %34, align 8
  br label %67

35:                                               ; preds = %24
  %36 = load ptr, ptr %2, align 8
  %37 = getelementptr inbounds %struct.parser, ptr %36, i32 0, i32 0
  %38 = load ptr, ptr %37, align 8
  %39 = load i8, ptr %38, align 1
  %40 = call i32 @is_digit(i8 noundef signext %39)
  %41 = icmp ne i32 %40, 0
  br i1 %41, label %42, label %44

42:                                               ; preds = %35
  %43 = load ptr, ptr %2, align 8
  call void @read_number(ptr noundef %43)
  br label %66

44:                                               ; preds = %35
  %45 = load ptr, ptr %2, align 8
  %46 = getelementptr inbounds %struct.parser, ptr %45, i32 0, i32 0
  %47 = load ptr, ptr %46, align 8
  %48 = load i8, ptr %47, align 1
  %49 = call i32 @is_name(i8 noundef signext %48)
  %50 = icmp ne i32 %49, 0
  br i1 %50, label %51, label %53

51:                                               ; preds = %44
  %52 = load ptr, ptr %2, align 8
  call void @read_name(ptr noundef %52)
  br label %65

53:                                               ; preds = %44
  %54 = load ptr, ptr %2, align 8
  %55 = getelementptr inbounds %struct.parser, ptr %54, i32 0, i32 1
  %56 = getelementptr inbounds %struct.token, ptr %55, i32 0, i32 0
  store i32 3, ptr %56, align 8
  %57 = load ptr, ptr %2, align 8
  %58 = getelementptr inbounds %struct.parser, ptr %57, i32 0, i32 0
  %59 = load ptr, ptr %58, align 8
  %60 = getelementptr inbounds i8, ptr %59, i32 1
  store ptr %60, ptr %58, align 8
  %61 = load i8, ptr %59, align 1
  %62 = load ptr, ptr %2, align 8
  %63 = getelementptr inbounds %struct.parser, ptr %62, i32 0, i32 1
  %64 = getelementptr inbounds %struct.token, ptr %63, i32 0, i32 3
  store i8 %61, ptr %64, align 8
  br label %65

65:                                               ; preds = %53, %51
  br label %66

66:                                               ; preds = %65, %42
  br label %67

67:                                               ; preds = %66, %31
  ret void
}

; Function Attrs: noinline nounwind uwtable
define internal void @statement(ptr noundef %0) #0 {
  %2 = alloca ptr, align 8
  %3 = alloca i32, align 4
  store ptr %0, ptr %2, align 8
  %4 = load ptr, ptr %2, align 8
  %5 = call i32 @at_word(ptr noundef %4, ptr noundef @.str.2)
  %6 = icmp ne i32 %5, 0
  br i1 %6, label %7, label %9

7:                                                ; preds = %1
  %8 = load ptr, ptr %2, align 8
  call void @if_statement(ptr noundef %8)
  br label %60

9:                                                ; preds = %1
  %10 = load ptr, ptr %2, align 8
  %11 = call i32 @at_word(ptr noundef %10, ptr noundef @.str.3)
  %12 = icmp ne i32 %11, 0
  br i1 %12, label %13, label %15

13:                                               ; preds = %9
  %14 = load ptr, ptr %2, align 8
  call void @while_statement(ptr noundef %14)
  br label %59

15:                                               ; preds = %9
  %16 = load ptr, ptr %2, align 8
  %17 = call i32 @at_word(ptr noundef %16, ptr noundef @.str.4)
  %18 = icmp ne i32 %17, 0
  br i1 %18, label %19, label %25

19:                                               ; preds = %15
  %20 = load ptr, ptr %2, align 8
  call void @step(ptr noundef %20)
  %21 = load ptr, ptr %2, align 8
  call void @expression(ptr noundef %21)
  %22 = load ptr, ptr %2, align 8
  %23 = call i32 @emit(ptr noundef %22, i32 noundef 16, i32 noundef 0, i64 noundef 0)
  %24 = load ptr, ptr %2, align 8
  call void @expect(ptr noundef %24, i8 noundef signext 59)
  br label %58

25:                                               ; preds = %15
  %26 = load ptr, ptr %2, align 8
  %27 = call i32 @at_word(ptr noundef %26, ptr noundef @.str.5)
  %28 = icmp ne i32 %27, 0
  br i1 %28, label %29, label %52

29:                                               ; preds = %25
  %30 = load ptr, ptr %2, align 8
  call void @step(ptr noundef %30)
  %31 = load ptr, ptr %2, align 8
  %32 = getelementptr inbounds %struct.parser, ptr %31, i32 0, i32 1
  %33 = getelementptr inbounds %struct.token, ptr %32, i32 0, i32 0
  %34 = load i32, ptr %33, align 8
  %35 = icmp ne i32 %34, 2
  br i1 %35, label %36, label %38

36:                                               ; preds = %29
  %37 = load ptr, ptr %2, align 8
  call void @fail(ptr noundef %37, ptr noundef @.str.6)
  br label %38

38:                                               ; preds = %36, %29
  %39 = load ptr, ptr %2, align 8
  %40 = load ptr, ptr %2, align 8
  %41 = getelementptr inbounds %struct.parser, ptr %40, i32 0, i32 1
  %42 = getelementptr inbounds %struct.token, ptr %41, i32 0, i32 2
  %43 = getelementptr inbounds [16 x i8], ptr %42, i64 0, i64 0
  %44 = call i32 @slot(ptr noundef %39, ptr noundef %43)
  store i32 %44, ptr %3, align 4
  %45 = load ptr, ptr %2, align 8
  call void @step(ptr noundef %45)
  %46 = load ptr, ptr %2, align 8
  call void @expect(ptr noundef %46, i8 noundef signext 58)
  %47 = load ptr, ptr %2, align 8
  call void @expression(ptr noundef %47)
  %48 = load ptr, ptr %2, align 8
  %49 = load i32, ptr %3, align 4
  %50 = call i32 @emit(ptr noundef %48, i32 noundef 2, i32 noundef %49, i64 noundef 0)
  %51 = load ptr, ptr %2, align 8
  call void @expect(ptr noundef %51, i8 noundef signext 59)
  br label %57

52:                                               ; preds = %25
  %53 = load ptr, ptr %2, align 8
  call void @expression(ptr noundef %53)
  %54 = load ptr, ptr %2, align 8
  %55 = call i32 @emit(ptr noundef %54, i32 noundef 17, i32 noundef 0, i64 noundef 0)
  %56 = load ptr, ptr %2, align 8
  call void @expect(ptr noundef %56, i8 noundef signext 59)
  br label %57

57:                                               ; preds = %52, %38
  br label %58

58:                                               ; preds = %57, %19
  br label %59

59:                                               ; preds = %58, %13
  br label %60

60:                                               ; preds = %59, %7
  ret void
}

; Function Attrs: noinline nounwind uwtable
define internal i32 @emit(ptr noundef %0, i32 noundef %1, i32 noundef %2, i64 noundef %3) #0 {
  %5 = alloca ptr, align 8
  %6 = alloca i32, align 4
  %7 = alloca i32, align 4
  %8 = alloca i64, align 8
  %9 = alloca ptr, align 8
  %10 = alloca i32, align 4
  %11 = alloca ptr, align 8
  store ptr %0, ptr %5, align 8
  store i32 %1, ptr %6, align 4
  store i32 %2, ptr %7, align 4
  store i64 %3, ptr %8, align 8
  %12 = load ptr, ptr %5, align 8
  %13 = getelementptr inbounds %struct.parser, ptr %12, i32 0, i32 2
  store ptr %13, ptr %9, align 8
  %14 = load ptr, ptr %9, align 8
  %15 = getelementptr inbounds %struct.code, ptr %14, i32 0, i32 1
  %16 = load i32, ptr %15, align 8
  %17 = load ptr, ptr %9, align 8
  %18 = getelementptr inbounds %struct.code, ptr %17, i32 0, i32 2
  %19 = load i32, ptr %18, align 4
  %20 = icmp eq i32 %16, %19
  br i1 %20, label %21, label %52

21:                                               ; preds = %4
  %22 = load ptr, ptr %9, align 8
  %23 = getelementptr inbounds %struct.code, ptr %22, i32 0, i32 2
  %24 = load i32, ptr %23, align 4
  %25 = icmp ne i32 %24, 0
  br i1 %25, label %26, label %31

26:                                               ; preds = %21
  %27 = load ptr, ptr %9, align 8
  %28 = getelementptr inbounds %struct.code, ptr %27, i32 0, i32 2
  %29 = load i32, ptr %28, align 4
  %30 = mul nsw i32 %29, 2
  br label %32

31:                                               ; preds = %21
  br label %32

32:                                               ; preds = %31, %26
  %33 = phi i32 [ %30, %26 ], [ 32, %31 ]
  store i32 %33, ptr %10, align 4
  %34 = load ptr, ptr %9, align 8
  %35 = getelementptr inbounds %struct.code, ptr %34, i32 0, i32 0
  %36 = load ptr, ptr %35, align 8
  %37 = load i32, ptr %10, align 4
  %38 = sext i32 %37 to i64
  %39 = mul i64 %38, 16
  %40 = call ptr @realloc(ptr noundef %36, i64 noundef %39) #9
  store ptr %40, ptr %11, align 8
  %41 = load ptr, ptr %11, align 8
  %42 = icmp ne ptr %41, null
  br i1 %42, label %45, label %43

43:                                               ; preds = %32
  %44 = load ptr, ptr %5, align 8
  call void @fail(ptr noundef %44, ptr noundef @.str.13)
  br label %45

45:                                               ; preds = %43, %32
  %46 = load ptr, ptr %11, align 8
  %47 = load ptr, ptr %9, align 8
  %48 = getelementptr inbounds %struct.code, ptr %47, i32 0, i32 0
  store ptr %46, ptr %48, align 8
  %49 = load i32, ptr %10, align 4
  %50 = load ptr, ptr %9, align 8
  %51 = getelementptr inbounds %struct.code, ptr %50, i32 0, i32 2
  store i32 %49, ptr %51, align 4
  br label %52

52:                                               ; preds = %45, %4
  %53 = load i32, ptr %6, align 4
  %54 = trunc i32 %53 to i8
  %55 = load ptr, ptr %9, align 8
  %56 = getelementptr inbounds %struct.code, ptr %55, i32 0, i32 0
  %57 = load ptr, ptr %56, align 8
  %58 = load ptr, ptr %9, align 8
  %59 = getelementptr inbounds %struct.code, ptr %58, i32 0, i32 1
  %60 = load i32, ptr %59, align 8
  %61 = sext i32 %60 to i64
  %62 = getelementptr inbounds %struct.instr, ptr %57, i64 %61
  %63 = getelementptr inbounds %struct.instr, ptr %62, i32 0, i32 0
  store i8 %54, ptr %63, align 8
  %64 = load i32, ptr %7, align 4
  %65 = load ptr, ptr %9, align 8
  %66 = getelementptr inbounds %struct.code, ptr %65, i32 0, i32 0
  %67 = load ptr, ptr %66, align 8
  %68 = load ptr, ptr %9, align 8
  %69 = getelementptr inbounds %struct.code, ptr %68, i32 0, i32 1
  %70 = load i32, ptr %69, align 8
  %71 = sext i32 %70 to i64
  %72 = getelementptr inbounds %struct.instr, ptr %67, i64 %71
  %73 = getelementptr inbounds %struct.instr, ptr %72, i32 0, i32 1
  store i32 %64, ptr %73, align 4
  %74 = load i64, ptr %8, align 8
  %75 = load ptr, ptr %9, align 8
  %76 = getelementptr inbounds %struct.code, ptr %75, i32 0, i32 0
  %77 = load ptr, ptr %76, align 8
  %78 = load ptr, ptr %9, align 8
  %79 = getelementptr inbounds %struct.code, ptr %78, i32 0, i32 1
  %80 = load i32, ptr %79, align 8
  %81 = sext i32 %80 to i64
  %82 = getelementptr inbounds %struct.instr, ptr %77, i64 %81
  %83 = getelementptr inbounds %struct.instr, ptr %82, i32 0, i32 2
  store i64 %74, ptr %83, align 8
  %84 = load ptr, ptr %9, align 8
  %85 = getelementptr inbounds %struct.code, ptr %84, i32 0, i32 1
  %86 = load i32, ptr %85, align 8
  %87 = add nsw i32 %86, 1
  store i32 %87, ptr %85, align 8
  ret i32 %86
}

; Function Attrs: noinline nounwind uwtable
define internal i32 @is_digit(i8 noundef signext %0) #0 {
  %2 = alloca i8, align 1
  store i8 %0, ptr %2, align 1
  %3 = load i8, ptr %2, align 1
  %4 = sext i8 %3 to i32
  %5 = icmp sge i32 %4, 48
  br i1 %5, label %6, label %10

6:                                                ; preds = %1
  %7 = load i8, ptr %2, align 1
  %8 = sext i8 %7 to i32
  %9 = icmp sle i32 %8, 57
  br label %10

10:                                               ; preds = %6, %1
  %11 = phi i1 [ false, %1 ], [ %9, %6 ]
  %12 = zext i1 %11 to i32
  ret i32 %12
}

; Function Attrs: noinline nounwind uwtable
define internal void @read_number(ptr noundef %0) #0 {
  %2 = alloca ptr, align 8
  %3 = alloca i64, align 8
  store ptr %0, ptr %2, align 8
  store i64 0, ptr %3, align 8
  br label %4

4:                                                ; preds = %16, %1
  %5 = load ptr, ptr %2, align 8
  %6 = getelementptr inbounds %struct.parser, ptr %5, i32 0, i32 0
  %7 = load ptr, ptr %6, align 8
  %8 = load i8, ptr %7, align 1
  %9 = call i32 @is_digit(i8 noundef signext %8)
  %10 = icmp ne i32 %9, 0
  br i1 %10, label %11, label %28

11:                                               ; preds = %4
  %12 = load i64, ptr %3, align 8
  %13 = icmp sgt i64 %12, 922337203685477579
  br i1 %13, label %14, label %16

14:                                               ; preds = %11
  %15 = load ptr, ptr %2, align 8
  call void @fail(ptr noundef %15, ptr noundef @.str)
  br label %16

16:                                               ; preds = %14, %11
  %17 = load i64, ptr %3, align 8
  %18 = mul nsw i64 %17, 10
  %19 = load ptr, ptr %2, align 8
  %20 = getelementptr inbounds %struct.parser, ptr %19, i32 0, i32 0
  %21 = load ptr, ptr %20, align 8
  %22 = getelementptr inbounds i8, ptr %21, i32 1
  store ptr %22, ptr %20, align 8
  %23 = load i8, ptr %21, align 1
  %24 = sext i8 %23 to i32
  %25 = sub nsw i32 %24, 48
  %26 = sext i32 %25 to i64
  %27 = add nsw i64 %18, %26
  store i64 %27, ptr %3, align 8
  br label %4, !llvm.loop !12

28:                                               ; preds = %4
  %29 = load ptr, ptr %2, align 8
  %30 = getelementptr inbounds %struct.parser, ptr %29, i32 0, i32 1
  %31 = getelementptr inbounds %struct.token, ptr %30, i32 0, i32 0
  store i32 1, ptr %31, align 8
  %32 = load i64, ptr %3, align 8
  %33 = load ptr, ptr %2, align 8
  %34 = getelementptr inbounds %struct.parser, ptr %33, i32 0, i32 1
  %35 = getelementptr inbounds %struct.token, ptr %34, i32 0, i32 1
  store i64 %32, ptr %35, align 8
  ret void
}

; Function Attrs: noinline nounwind uwtable
define internal i32 @is_name(i8 noundef signext %0) #0 {
  %2 = alloca i8, align 1
  store i8 %0, ptr %2, align 1
  %3 = load i8, ptr %2, align 1
  %4 = sext i8 %3 to i32
  %5 = icmp sge i32 %4, 97
  br i1 %5, label %6, label %10

6:                                                ; preds = %1
  %7 = load i8, ptr %2, align 1
  %8 = sext i8 %7 to i32
  %9 = icmp sle i32 %8, 122
  br i1 %9, label %22, label %10

10:                                               ; preds = %6, %1
  %11 = load i8, ptr %2, align 1
  %12 = sext i8 %11 to i32
  %13 = icmp sge i32 %12, 65
  br i1 %13, label %14, label %18

14:                                               ; preds = %10
  %15 = load i8, ptr %2, align 1
  %16 = sext i8 %15 to i32
  %17 = icmp sle i32 %16, 90
  br i1 %17, label %22, label %18

18:                                               ; preds = %14, %10
  %19 = load i8, ptr %2, align 1
  %20 = sext i8 %19 to i32
  %21 = icmp eq i32 %20, 95
  br label %22

22:                                               ; preds = %18, %14, %6
  %23 = phi i1 [ true, %14 ], [ true, %6 ], [ %21, %18 ]
  %24 = zext i1 %23 to i32
  ret i32 %24
}

; Function Attrs: noinline nounwind uwtable
define internal void @read_name(ptr noundef %0) #0 {
  %2 = alloca ptr, align 8
  %3 = alloca i32, align 4
  store ptr %0, ptr %2, align 8
  store i32 0, ptr %3, align 4
  br label %4

4:                                                ; preds = %25, %1
  %5 = load ptr, ptr %2, align 8
  %6 = getelementptr inbounds %struct.parser, ptr %5, i32 0, i32 0
  %7 = load ptr, ptr %6, align 8
  %8 = load i8, ptr %7, align 1
  %9 = call i32 @is_name(i8 noundef signext %8)
  %10 = icmp ne i32 %9, 0
  br i1 %10, label %18, label %11

11:                                               ; preds = %4
  %12 = load ptr, ptr %2, align 8
  %13 = getelementptr inbounds %struct.parser, ptr %12, i32 0, i32 0
  %14 = load ptr, ptr %13, align 8
  %15 = load i8, ptr %14, align 1
  %16 = call i32 @is_digit(i8 noundef signext %15)
  %17 = icmp ne i32 %16, 0
  br label %18

18:                                               ; preds = %11, %4
  %19 = phi i1 [ true, %4 ], [ %17, %11 ]
  br i1 %19, label %20, label %38

20:                                               ; preds = %18
  %21 = load i32, ptr %3, align 4
  %22 = icmp eq i32 %21, 15
  br i1 %22, label %23, label %25

23:                                               ; preds = %20
  %24 = load ptr, ptr %2, align 8
  call void @fail(ptr noundef %24, ptr noundef @.str.1)
  br label %25

25:                                               ; preds = %23, %20
  %26 = load ptr, ptr %2, align 8
  %27 = getelementptr inbounds %struct.parser, ptr %26, i32 0, i32 0
  %28 = load ptr, ptr %27, align 8
  %29 = getelementptr inbounds i8, ptr %28, i32 1
  store ptr %29, ptr %27, align 8
  %30 = load i8, ptr %28, align 1
  %31 = load ptr, ptr %2, align 8
  %32 = getelementptr inbounds %struct.parser, ptr %31, i32 0, i32 1
  %33 = getelementptr inbounds %struct.token, ptr %32, i32 0, i32 2
  %34 = load i32, ptr %3, align 4
  %35 = add nsw i32 %34, 1
  store i32 %35, ptr %3, align 4
  %36 = sext i32 %34 to i64
  %37 = getelementptr inbounds [16 x i8], ptr %33, i64 0, i64 %36
  store i8 %30, ptr %37, align 1
  br label %4, !llvm.loop !13

38:                                               ; preds = %18
  %39 = load ptr, ptr %2, align 8
  %40 = getelementptr inbounds %struct.parser, ptr %39, i32 0, i32 1
  %41 = getelementptr inbounds %struct.token, ptr %40, i32 0, i32 2
  %42 = load i32, ptr %3, align 4
  %43 = sext i32 %42 to i64
  %44 = getelementptr inbounds [16 x i8], ptr %41, i64 0, i64 %43
  store i8 0, ptr %44, align 1
  %45 = load ptr, ptr %2, align 8
  %46 = getelementptr inbounds %struct.parser, ptr %45, i32 0, i32 1
  %47 = getelementptr inbounds %struct.token, ptr %46, i32 0, i32 0
  store i32 2, ptr %47, align 8
  ret void
}

; Function Attrs: noinline nounwind uwtable
define internal void @fail(ptr noundef %0, ptr noundef %1) #0 {
  %3 = alloca ptr, align 8
  %4 = alloca ptr, align 8
  store ptr %0, ptr %3, align 8
  store ptr %1, ptr %4, align 8
  %5 = load ptr, ptr %4, align 8
  %6 = load ptr, ptr %3, align 8
  %7 = getelementptr inbounds %struct.parser, ptr %6, i32 0, i32 5
  store ptr %5, ptr %7, align 8
  %8 = load ptr, ptr %3, align 8
  %9 = getelementptr inbounds %struct.parser, ptr %8, i32 0, i32 6
  %10 = getelementptr inbounds [1 x %struct.__jmp_buf_tag], ptr %9, i64 0, i64 0
  call void @longjmp(ptr noundef %10, i32 noundef 1) #10
  unreachable
}

; Function Attrs: noreturn nounwind
declare void @longjmp(ptr noundef, i32 noundef) #4

; Function Attrs: noinline nounwind uwtable
define internal i32 @at_word(ptr noundef %0, ptr noundef %1) #0 {
  %3 = alloca ptr, align 8
  %4 = alloca ptr, align 8
  store ptr %0, ptr %3, align 8
  store ptr %1, ptr %4, align 8
  %5 = load ptr, ptr %3, align 8
  %6 = getelementptr inbounds %struct.parser, ptr %5, i32 0, i32 1
  %7 = getelementptr inbounds %struct.token, ptr %6, i32 0, i32 0
  %8 = load i32, ptr %7, align 8
  %9 = icmp eq i32 %8, 2
  br i1 %9, label %10, label %18

10:                                               ; preds = %2
  %11 = load ptr, ptr %3, align 8
  %12 = getelementptr inbounds %struct.parser, ptr %11, i32 0, i32 1
  %13 = getelementptr inbounds %struct.token, ptr %12, i32 0, i32 2
  %14 = getelementptr inbounds [16 x i8], ptr %13, i64 0, i64 0
  %15 = load ptr, ptr %4, align 8
  %16 = call i32 @strcmp(ptr noundef %14, ptr noundef %15) #11
  %17 = icmp eq i32 %16, 0
  br label %18

18:                                               ; preds = %10, %2
  %19 = phi i1 [ false, %2 ], [ %17, %10 ]
  %20 = zext i1 %19 to i32
  ret i32 %20
}

; Function Attrs: noinline nounwind uwtable
define internal void @if_statement(ptr noundef %0) #0 {
  %2 = alloca ptr, align 8
  %3 = alloca i32, align 4
  %4 = alloca i32, align 4
  store ptr %0, ptr %2, align 8
  %5 = load ptr, ptr %2, align 8
  call void @step(ptr noundef %5)
  %6 = load ptr, ptr %2, align 8
  call void @expression(ptr noundef %6)
  %7 = load ptr, ptr %2, align 8
  %8 = call i32 @emit(ptr noundef %7, i32 noundef 15, i32 noundef 0, i64 noundef 0)
  store i32 %8, ptr %3, align 4
  %9 = load ptr, ptr %2, align 8
  call void @block(ptr noundef %9)
  %10 = load ptr, ptr %2, align 8
  %11 = call i32 @at_word(ptr noundef %10, ptr noundef @.str.7)
  %12 = icmp ne i32 %11, 0
  br i1 %12, label %26, label %13

13:                                               ; preds = %1
  %14 = load ptr, ptr %2, align 8
  %15 = getelementptr inbounds %struct.parser, ptr %14, i32 0, i32 2
  %16 = getelementptr inbounds %struct.code, ptr %15, i32 0, i32 1
  %17 = load i32, ptr %16, align 8
  %18 = load ptr, ptr %2, align 8
  %19 = getelementptr inbounds %struct.parser, ptr %18, i32 0, i32 2
  %20 = getelementptr inbounds %struct.code, ptr %19, i32 0, i32 0
  %21 = load ptr, ptr %20, align 8
  %22 = load i32, ptr %3, align 4
  %23 = sext i32 %22 to i64
  %24 = getelementptr inbounds %struct.instr, ptr %21, i64 %23
  %25 = getelementptr inbounds %struct.instr, ptr %24, i32 0, i32 1
  store i32 %17, ptr %25, align 4
  br label %55

26:                                               ; preds = %1
  %27 = load ptr, ptr %2, align 8
  call void @step(ptr noundef %27)
  %28 = load ptr, ptr %2, align 8
  %29 = call i32 @emit(ptr noundef %28, i32 noundef 14, i32 noundef 0, i64 noundef 0)
  store i32 %29, ptr %4, align 4
  %30 = load ptr, ptr %2, align 8
  %31 = getelementptr inbounds %struct.parser, ptr %30, i32 0, i32 2
  %32 = getelementptr inbounds %struct.code, ptr %31, i32 0, i32 1
  %33 = load i32, ptr %32, align 8
  %34 = load ptr, ptr %2, align 8
  %35 = getelementptr inbounds %struct.parser, ptr %34, i32 0, i32 2
  %36 = getelementptr inbounds %struct.code, ptr %35, i32 0, i32 0
  %37 = load ptr, ptr %36, align 8
  %38 = load i32, ptr %3, align 4
  %39 = sext i32 %38 to i64
  %40 = getelementptr inbounds %struct.instr, ptr %37, i64 %39
  %41 = getelementptr inbounds %struct.instr, ptr %40, i32 0, i32 1
  store i32 %33, ptr %41, align 4
  %42 = load ptr, ptr %2, align 8
  call void @block(ptr noundef %42)
  %43 = load ptr, ptr %2, align 8
  %44 = getelementptr inbounds %struct.parser, ptr %43, i32 0, i32 2
  %45 = getelementptr inbounds %struct.code, ptr %44, i32 0, i32 1
  %46 = load i32, ptr %45, align 8
  %47 = load ptr, ptr %2, align 8
  %48 = getelementptr inbounds %struct.parser, ptr %47, i32 0, i32 2
  %49 = getelementptr inbounds %struct.code, ptr %48, i32 0, i32 0
  %50 = load ptr, ptr %49, align 8
  %51 = load i32, ptr %4, align 4
  %52 = sext i32 %51 to i64
  %53 = getelementptr inbounds %struct.instr, ptr %50, i64 %52
  %54 = getelementptr inbounds %struct.instr, ptr %53, i32 0, i32 1
  store i32 %46, ptr %54, align 4
  br label %55

55:                                               ; preds = %26, %13
  ret void
}

; Function Attrs: noinline nounwind uwtable
define internal void @while_statement(ptr noundef %0) #0 {
  %2 = alloca ptr, align 8
  %3 = alloca i32, align 4
  %4 = alloca i32, align 4
  store ptr %0, ptr %2, align 8
  %5 = load ptr, ptr %2, align 8
  %6 = getelementptr inbounds %struct.parser, ptr %5, i32 0, i32 2
  %7 = getelementptr inbounds %struct.code, ptr %6, i32 0, i32 1
  %8 = load i32, ptr %7, align 8
  store i32 %8, ptr %3, align 4
  %9 = load ptr, ptr %2, align 8
  call void @step(ptr noundef %9)
  %10 = load ptr, ptr %2, align 8
  call void @expression(ptr noundef %10)
  %11 = load ptr, ptr %2, align 8
  %12 = call i32 @emit(ptr noundef %11, i32 noundef 15, i32 noundef 0, i64 noundef 0)
  store i32 %12, ptr %4, align 4
  %13 = load ptr, ptr %2, align 8
  call void @block(ptr noundef %13)
  %14 = load ptr, ptr %2, align 8
  %15 = load i32, ptr %3, align 4
  %16 = call i32 @emit(ptr noundef %14, i32 noundef 14, i32 noundef %15, i64 noundef 0)
  %17 = load ptr, ptr %2, align 8
  %18 = getelementptr inbounds %struct.parser, ptr %17, i32 0, i32 2
  %19 = getelementptr inbounds %struct.code, ptr %18, i32 0, i32 1
  %20 = load i32, ptr %19, align 8
  %21 = load ptr, ptr %2, align 8
  %22 = getelementptr inbounds %struct.parser, ptr %21, i32 0, i32 2
  %23 = getelementptr inbounds %struct.code, ptr %22, i32 0, i32 0
  %24 = load ptr, ptr %23, align 8
  %25 = load i32, ptr %4, align 4
  %26 = sext i32 %25 to i64
  %27 = getelementptr inbounds %struct.instr, ptr %24, i64 %26
  %28 = getelementptr inbounds %struct.instr, ptr %27, i32 0, i32 1
  store i32 %20, ptr %28, align 4
  ret void
}

; Function Attrs: noinline nounwind uwtable
define internal void @expression(ptr noundef %0) #0 {
  %2 = alloca ptr, align 8
  store ptr %0, ptr %2, align 8
  %3 = load ptr, ptr %2, align 8
  call void @level(ptr noundef %3, i32 noundef 0)
  ret void
}

; Function Attrs: noinline nounwind uwtable
define internal void @expect(ptr noundef %0, i8 noundef signext %1) #0 {
  %3 = alloca ptr, align 8
  %4 = alloca i8, align 1
  store ptr %0, ptr %3, align 8
  store i8 %1, ptr %4, align 1
  %5 = load ptr, ptr %3, align 8
  %6 = load i8, ptr %4, align 1
  %7 = call i32 @at_mark(ptr noundef %5, i8 noundef signext %6)
  %8 = icmp ne i32 %7, 0
  br i1 %8, label %11, label %9

9:                                                ; preds = %2
  %10 = load ptr, ptr %3, align 8
  call void @fail(ptr noundef %10, ptr noundef @.str.11)
  br label %11

11:                                               ; preds = %9, %2
  %12 = load ptr, ptr %3, align 8
  call void @step(ptr noundef %12)
  ret void
}

; Function Attrs: noinline nounwind uwtable
define internal i32 @slot(ptr noundef %0, ptr noundef %1) #0 {
  %3 = alloca i32, align 4
  %4 = alloca ptr, align 8
  %5 = alloca ptr, align 8
  %6 = alloca ptr, align 8
  %7 = alloca i32, align 4
  store ptr %0, ptr %4, align 8
  store ptr %1, ptr %5, align 8
  %8 = load ptr, ptr %4, align 8
  %9 = getelementptr inbounds %struct.parser, ptr %8, i32 0, i32 3
  store ptr %9, ptr %6, align 8
  store i32 0, ptr %7, align 4
  br label %10

10:                                               ; preds = %29, %2
  %11 = load i32, ptr %7, align 4
  %12 = load ptr, ptr %6, align 8
  %13 = getelementptr inbounds %struct.scope, ptr %12, i32 0, i32 1
  %14 = load i32, ptr %13, align 4
  %15 = icmp slt i32 %11, %14
  br i1 %15, label %16, label %32

16:                                               ; preds = %10
  %17 = load ptr, ptr %6, align 8
  %18 = getelementptr inbounds %struct.scope, ptr %17, i32 0, i32 0
  %19 = load i32, ptr %7, align 4
  %20 = sext i32 %19 to i64
  %21 = getelementptr inbounds [64 x [16 x i8]], ptr %18, i64 0, i64 %20
  %22 = getelementptr inbounds [16 x i8], ptr %21, i64 0, i64 0
  %23 = load ptr, ptr %5, align 8
  %24 = call i32 @strcmp(ptr noundef %22, ptr noundef %23) #11
  %25 = icmp eq i32 %24, 0
  br i1 %25, label %26, label %28

26:                                               ; preds = %16
  %27 = load i32, ptr %7, align 4
  store i32 %27, ptr %3, align 4
  br label %54

28:                                               ; preds = %16
  br label %29

29:                                               ; preds = %28
  %30 = load i32, ptr %7, align 4
  %31 = add nsw i32 %30, 1
  store i32 %31, ptr %7, align 4
  br label %10, !llvm.loop !14

32:                                               ; preds = %10
  %33 = load ptr, ptr %6, align 8
  %34 = getelementptr inbounds %struct.scope, ptr %33, i32 0, i32 1
  %35 = load i32, ptr %34, align 4
  %36 = icmp eq i32 %35, 64
  br i1 %36, label %37, label %39

37:                                               ; preds = %32
  %38 = load ptr, ptr %4, align 8
  call void @fail(ptr noundef %38, ptr noundef @.str.12)
  br label %39

39:                                               ; preds = %37, %32
  %40 = load ptr, ptr %6, align 8
  %41 = getelementptr inbounds %struct.scope, ptr %40, i32 0, i32 0
  %42 = load ptr, ptr %6, align 8
  %43 = getelementptr inbounds %struct.scope, ptr %42, i32 0, i32 1
  %44 = load i32, ptr %43, align 4
  %45 = sext i32 %44 to i64
  %46 = getelementptr inbounds [64 x [16 x i8]], ptr %41, i64 0, i64 %45
  %47 = getelementptr inbounds [16 x i8], ptr %46, i64 0, i64 0
  %48 = load ptr, ptr %5, align 8
  %49 = call ptr @strcpy(ptr noundef %47, ptr noundef %48) #7
  %50 = load ptr, ptr %6, align 8
  %51 = getelementptr inbounds %struct.scope, ptr %50, i32 0, i32 1
  %52 = load i32, ptr %51, align 4
  %53 = add nsw i32 %52, 1
  store i32 %53, ptr %51, align 4
  store i32 %52, ptr %3, align 4
  br label %54

54:                                               ; preds = %39, %26
  %55 = load i32, ptr %3, align 4
  ret i32 %55
}

; Function Attrs: nounwind willreturn memory(read)
declare i32 @strcmp(ptr noundef, ptr noundef) #5

; Function Attrs: noinline nounwind uwtable
define internal void @block(ptr noundef %0) #0 {
  %2 = alloca ptr, align 8
  store ptr %0, ptr %2, align 8
  %3 = load ptr, ptr %2, align 8
  call void @expect(ptr noundef %3, i8 noundef signext 123)
  br label %4

4:                                                ; preds = %17, %1
  %5 = load ptr, ptr %2, align 8
  %6 = call i32 @at_mark(ptr noundef %5, i8 noundef signext 125)
  %7 = icmp ne i32 %6, 0
  %8 = xor i1 %7, true
  br i1 %8, label %9, label %19

9:                                                ; preds = %4
  %10 = load ptr, ptr %2, align 8
  %11 = getelementptr inbounds %struct.parser, ptr %10, i32 0, i32 1
  %12 = getelementptr inbounds %struct.token, ptr %11, i32 0, i32 0
  %13 = load i32, ptr %12, align 8
  %14 = icmp eq i32 %13, 0
  br i1 %14, label %15, label %17

15:                                               ; preds = %9
  %16 = load ptr, ptr %2, align 8
  call void @fail(ptr noundef %16, ptr noundef @.str.8)
  br label %17

17:                                               ; preds = %15, %9
  %18 = load ptr, ptr %2, align 8
  call void @statement(ptr noundef %18)
  br label %4, !llvm.loop !15

19:                                               ; preds = %4
  %20 = load ptr, ptr %2, align 8
  call void @step(ptr noundef %20)
  ret void
}

; Function Attrs: noinline nounwind uwtable
define internal i32 @at_mark(ptr noundef %0, i8 noundef signext %1) #0 {
  %3 = alloca ptr, align 8
  %4 = alloca i8, align 1
  store ptr %0, ptr %3, align 8
  store i8 %1, ptr %4, align 1
  %5 = load ptr, ptr %3, align 8
  %6 = getelementptr inbounds %struct.parser, ptr %5, i32 0, i32 1
  %7 = getelementptr inbounds %struct.token, ptr %6, i32 0, i32 0
  %8 = load i32, ptr %7, align 8
  %9 = icmp eq i32 %8, 3
  br i1 %9, label %10, label %19

10:                                               ; preds = %2
  %11 = load ptr, ptr %3, align 8
  %12 = getelementptr inbounds %struct.parser, ptr %11, i32 0, i32 1
  %13 = getelementptr inbounds %struct.token, ptr %12, i32 0, i32 3
  %14 = load i8, ptr %13, align 8
  %15 = sext i8 %14 to i32
  %16 = load i8, ptr %4, align 1
  %17 = sext i8 %16 to i32
  %18 = icmp eq i32 %15, %17
  br label %19

19:                                               ; preds = %10, %2
  %20 = phi i1 [ false, %2 ], [ %18, %10 ]
  %21 = zext i1 %20 to i32
  ret i32 %21
}

; Function Attrs: noinline nounwind uwtable
define internal void @level(ptr noundef %0, i32 noundef %1) #0 {
  %3 = alloca ptr, align 8
  %4 = alloca i32, align 4
  %5 = alloca i32, align 4
  store ptr %0, ptr %3, align 8
  store i32 %1, ptr %4, align 4
  %6 = load i32, ptr %4, align 4
  %7 = icmp eq i32 %6, 5
  br i1 %7, label %8, label %10

8:                                                ; preds = %2
  %9 = load ptr, ptr %3, align 8
  call void @primary(ptr noundef %9)
  br label %38

10:                                               ; preds = %2
  %11 = load ptr, ptr %3, align 8
  %12 = load i32, ptr %4, align 4
  %13 = add nsw i32 %12, 1
  call void @level(ptr noundef %11, i32 noundef %13)
  br label %14

14:                                               ; preds = %30, %10
  %15 = load ptr, ptr %3, align 8
  %16 = getelementptr inbounds %struct.parser, ptr %15, i32 0, i32 1
  %17 = getelementptr inbounds %struct.token, ptr %16, i32 0, i32 0
  %18 = load i32, ptr %17, align 8
  %19 = icmp eq i32 %18, 3
  br i1 %19, label %20, label %38

20:                                               ; preds = %14
  %21 = load ptr, ptr %3, align 8
  %22 = getelementptr inbounds %struct.parser, ptr %21, i32 0, i32 1
  %23 = getelementptr inbounds %struct.token, ptr %22, i32 0, i32 3
  %24 = load i8, ptr %23, align 8
  %25 = load i32, ptr %4, align 4
  %26 = call i32 @op_of(i8 noundef signext %24, i32 noundef %25)
  store i32 %26, ptr %5, align 4
  %27 = load i32, ptr %5, align 4
  %28 = icmp eq i32 %27, 18
  br i1 %28, label %29, label %30

29:                                               ; preds = %20
  br label %38

30:                                               ; preds = %20
  %31 = load ptr, ptr %3, align 8
  call void @step(ptr noundef %31)
  %32 = load ptr, ptr %3, align 8
  %33 = load i32, ptr %4, align 4
  %34 = add nsw i32 %33, 1
  call void @level(ptr noundef %32, i32 noundef %34)
  %35 = load ptr, ptr %3, align 8
  %36 = load i32, ptr %5, align 4
  %37 = call i32 @emit(ptr noundef %35, i32 noundef %36, i32 noundef 0, i64 noundef 0)
  br label %14, !llvm.loop !16

38:                                               ; preds = %8, %29, %14
  ret void
}

; Function Attrs: noinline nounwind uwtable
define internal void @primary(ptr noundef %0) #0 {
  %2 = alloca ptr, align 8
  store ptr %0, ptr %2, align 8
  %3 = load ptr, ptr %2, align 8
  %4 = getelementptr inbounds %struct.parser, ptr %3, i32 0, i32 4
  %5 = load i32, ptr %4, align 4
  %6 = add nsw i32 %5, 1
  store i32 %6, ptr %4, align 4
  %7 = icmp sgt i32 %6, 100
  br i1 %7, label %8, label %10

8:                                                ; preds = %1
  %9 = load ptr, ptr %2, align 8
  call void @fail(ptr noundef %9, ptr noundef @.str.9)
  br label %10

10:                                               ; preds = %8, %1
  %11 = load ptr, ptr %2, align 8
  %12 = getelementptr inbounds %struct.parser, ptr %11, i32 0, i32 1
  %13 = getelementptr inbounds %struct.token, ptr %12, i32 0, i32 0
  %14 = load i32, ptr %13, align 8
  %15 = icmp eq i32 %14, 1
  br i1 %15, label %16, label %24

16:                                               ; preds = %10
  %17 = load ptr, ptr %2, align 8
  %18 = load ptr, ptr %2, align 8
  %19 = getelementptr inbounds %struct.parser, ptr %18, i32 0, i32 1
  %20 = getelementptr inbounds %struct.token, ptr %19, i32 0, i32 1
  %21 = load i64, ptr %20, align 8
  %22 = call i32 @emit(ptr noundef %17, i32 noundef 0, i32 noundef 0, i64 noundef %21)
  %23 = load ptr, ptr %2, align 8
  call void @step(ptr noundef %23)
  br label %72

24:                                               ; preds = %10
  %25 = load ptr, ptr %2, align 8
  %26 = getelementptr inbounds %struct.parser, ptr %25, i32 0, i32 1
  %27 = getelementptr inbounds %struct.token, ptr %26, i32 0, i32 0
  %28 = load i32, ptr %27, align 8
  %29 = icmp eq i32 %28, 2
  br i1 %29, label %30, label %40

30:                                               ; preds = %24
  %31 = load ptr, ptr %2, align 8
  %32 = load ptr, ptr %2, align 8
  %33 = load ptr, ptr %2, align 8
  %34 = getelementptr inbounds %struct.parser, ptr %33, i32 0, i32 1
  %35 = getelementptr inbounds %struct.token, ptr %34, i32 0, i32 2
  %36 = getelementptr inbounds [16 x i8], ptr %35, i64 0, i64 0
  %37 = call i32 @slot(ptr noundef %32, ptr noundef %36)
  %38 = call i32 @emit(ptr noundef %31, i32 noundef 1, i32 noundef %37, i64 noundef 0)
  %39 = load ptr, ptr %2, align 8
  call void @step(ptr noundef %39)
  br label %71

40:                                               ; preds = %24
  %41 = load ptr, ptr %2, align 8
  %42 = call i32 @at_mark(ptr noundef %41, i8 noundef signext 40)
  %43 = icmp ne i32 %42, 0
  br i1 %43, label %44, label %48

44:                                               ; preds = %40
  %45 = load ptr, ptr %2, align 8
  call void @step(ptr noundef %45)
  %46 = load ptr, ptr %2, align 8
  call void @expression(ptr noundef %46)
  %47 = load ptr, ptr %2, align 8
  call void @expect(ptr noundef %47, i8 noundef signext 41)
  br label %70

48:                                               ; preds = %40
  %49 = load ptr, ptr %2, align 8
  %50 = call i32 @at_mark(ptr noundef %49, i8 noundef signext 45)
  %51 = icmp ne i32 %50, 0
  br i1 %51, label %52, label %57

52:                                               ; preds = %48
  %53 = load ptr, ptr %2, align 8
  call void @step(ptr noundef %53)
  %54 = load ptr, ptr %2, align 8
  call void @primary(ptr noundef %54)
  %55 = load ptr, ptr %2, align 8
  %56 = call i32 @emit(ptr noundef %55, i32 noundef 8, i32 noundef 0, i64 noundef 0)
  br label %69

57:                                               ; preds = %48
  %58 = load ptr, ptr %2, align 8
  %59 = call i32 @at_mark(ptr noundef %58, i8 noundef signext 33)
  %60 = icmp ne i32 %59, 0
  br i1 %60, label %61, label %66

61:                                               ; preds = %57
  %62 = load ptr, ptr %2, align 8
  call void @step(ptr noundef %62)
  %63 = load ptr, ptr %2, align 8
  call void @primary(ptr noundef %63)
  %64 = load ptr, ptr %2, align 8
  %65 = call i32 @emit(ptr noundef %64, i32 noundef 9, i32 noundef 0, i64 noundef 0)
  br label %68

66:                                               ; preds = %57
  %67 = load ptr, ptr %2, align 8
  call void @fail(ptr noundef %67, ptr noundef @.str.10)
  br label %68

68:                                               ; preds = %66, %61
  br label %69

69:                                               ; preds = %68, %52
  br label %70

70:                                               ; preds = %69, %44
  br label %71

71:                                               ; preds = %70, %30
  br label %72

72:                                               ; preds = %71, %16
  %73 = load ptr, ptr %2, align 8
  %74 = getelementptr inbounds %struct.parser, ptr %73, i32 0, i32 4
  %75 = load i32, ptr %74, align 4
  %76 = add nsw i32 %75, -1
  store i32 %76, ptr %74, align 4
  ret void
}

; Function Attrs: noinline nounwind uwtable
define internal i32 @op_of(i8 noundef signext %0, i32 noundef %1) #0 {
  %3 = alloca i32, align 4
  %4 = alloca i8, align 1
  %5 = alloca i32, align 4
  store i8 %0, ptr %4, align 1
  store i32 %1, ptr %5, align 4
  %6 = load i32, ptr %5, align 4
  switch i32 %6, label %52 [
    i32 0, label %7
    i32 1, label %13
    i32 2, label %19
    i32 3, label %32
    i32 4, label %45
  ]

7:                                                ; preds = %2
  %8 = load i8, ptr %4, align 1
  %9 = sext i8 %8 to i32
  %10 = icmp eq i32 %9, 124
  %11 = zext i1 %10 to i64
  %12 = select i1 %10, i32 13, i32 18
  store i32 %12, ptr %3, align 4
  br label %53

13:                                               ; preds = %2
  %14 = load i8, ptr %4, align 1
  %15 = sext i8 %14 to i32
  %16 = icmp eq i32 %15, 38
  %17 = zext i1 %16 to i64
  %18 = select i1 %16, i32 12, i32 18
  store i32 %18, ptr %3, align 4
  br label %53

19:                                               ; preds = %2
  %20 = load i8, ptr %4, align 1
  %21 = sext i8 %20 to i32
  %22 = icmp eq i32 %21, 60
  br i1 %22, label %23, label %24

23:                                               ; preds = %19
  br label %30

24:                                               ; preds = %19
  %25 = load i8, ptr %4, align 1
  %26 = sext i8 %25 to i32
  %27 = icmp eq i32 %26, 61
  %28 = zext i1 %27 to i64
  %29 = select i1 %27, i32 11, i32 18
  br label %30

30:                                               ; preds = %24, %23
  %31 = phi i32 [ 10, %23 ], [ %29, %24 ]
  store i32 %31, ptr %3, align 4
  br label %53

32:                                               ; preds = %2
  %33 = load i8, ptr %4, align 1
  %34 = sext i8 %33 to i32
  %35 = icmp eq i32 %34, 43
  br i1 %35, label %36, label %37

36:                                               ; preds = %32
  br label %43

37:                                               ; preds = %32
  %38 = load i8, ptr %4, align 1
  %39 = sext i8 %38 to i32
  %40 = icmp eq i32 %39, 45
  %41 = zext i1 %40 to i64
  %42 = select i1 %40, i32 4, i32 18
  br label %43

43:                                               ; preds = %37, %36
  %44 = phi i32 [ 3, %36 ], [ %42, %37 ]
  store i32 %44, ptr %3, align 4
  br label %53

45:                                               ; preds = %2
  %46 = load i8, ptr %4, align 1
  %47 = sext i8 %46 to i32
  switch i32 %47, label %51 [
    i32 42, label %48
    i32 47, label %49
    i32 37, label %50
  ]

48:                                               ; preds = %45
  store i32 5, ptr %3, align 4
  br label %53

49:                                               ; preds = %45
  store i32 6, ptr %3, align 4
  br label %53

50:                                               ; preds = %45
  store i32 7, ptr %3, align 4
  br label %53

51:                                               ; preds = %45
  store i32 18, ptr %3, align 4
  br label %53

52:                                               ; preds = %2
  store i32 18, ptr %3, align 4
  br label %53

53:                                               ; preds = %52, %51, %50, %49, %48, %43, %30, %13, %7
  %54 = load i32, ptr %3, align 4
  ret i32 %54
}

; Function Attrs: nounwind
declare ptr @strcpy(ptr noundef, ptr noundef) #1

; Function Attrs: nounwind allocsize(1)
declare ptr @realloc(ptr noundef, i64 noundef) #6

; Function Attrs: noinline nounwind uwtable
define internal void @push(ptr noundef %0, i64 noundef %1) #0 {
  %3 = alloca ptr, align 8
  %4 = alloca i64, align 8
  store ptr %0, ptr %3, align 8
  store i64 %1, ptr %4, align 8
  %5 = load ptr, ptr %3, align 8
  %6 = getelementptr inbounds %struct.machine, ptr %5, i32 0, i32 1
  %7 = load i32, ptr %6, align 8
  %8 = icmp eq i32 %7, 256
  br i1 %8, label %9, label %12

9:                                                ; preds = %2
  %10 = load ptr, ptr %3, align 8
  %11 = getelementptr inbounds %struct.machine, ptr %10, i32 0, i32 4
  store ptr @.str.15, ptr %11, align 8
  br label %22

12:                                               ; preds = %2
  %13 = load i64, ptr %4, align 8
  %14 = load ptr, ptr %3, align 8
  %15 = getelementptr inbounds %struct.machine, ptr %14, i32 0, i32 0
  %16 = load ptr, ptr %3, align 8
  %17 = getelementptr inbounds %struct.machine, ptr %16, i32 0, i32 1
  %18 = load i32, ptr %17, align 8
  %19 = add nsw i32 %18, 1
  store i32 %19, ptr %17, align 8
  %20 = sext i32 %18 to i64
  %21 = getelementptr inbounds [256 x i64], ptr %15, i64 0, i64 %20
  store i64 %13, ptr %21, align 8
  br label %22

22:                                               ; preds = %12, %9
  ret void
}

; Function Attrs: noinline nounwind uwtable
define internal i64 @pop(ptr noundef %0) #0 {
  %2 = alloca i64, align 8
  %3 = alloca ptr, align 8
  store ptr %0, ptr %3, align 8
  %4 = load ptr, ptr %3, align 8
  %5 = getelementptr inbounds %struct.machine, ptr %4, i32 0, i32 1
  %6 = load i32, ptr %5, align 8
  %7 = icmp eq i32 %6, 0
  br i1 %7, label %8, label %11

8:                                                ; preds = %1
  %9 = load ptr, ptr %3, align 8
  %10 = getelementptr inbounds %struct.machine, ptr %9, i32 0, i32 4
  store ptr @.str.16, ptr %10, align 8
  store i64 0, ptr %2, align 8
  br label %21

11:                                               ; preds = %1
  %12 = load ptr, ptr %3, align 8
  %13 = getelementptr inbounds %struct.machine, ptr %12, i32 0, i32 0
  %14 = load ptr, ptr %3, align 8
  %15 = getelementptr inbounds %struct.machine, ptr %14, i32 0, i32 1
  %16 = load i32, ptr %15, align 8
  %17 = add nsw i32 %16, -1
  store i32 %17, ptr %15, align 8
  %18 = sext i32 %17 to i64
  %19 = getelementptr inbounds [256 x i64], ptr %13, i64 0, i64 %18
  %20 = load i64, ptr %19, align 8
  store i64 %20, ptr %2, align 8
  br label %21

21:                                               ; preds = %11, %8
  %22 = load i64, ptr %2, align 8
  ret i64 %22
}

; Function Attrs: noinline nounwind uwtable
define internal void @put_long(i64 noundef %0) #0 {
  %2 = alloca i64, align 8
  %3 = alloca i64, align 8
  %4 = alloca [20 x i8], align 16
  %5 = alloca i32, align 4
  store i64 %0, ptr %2, align 8
  %6 = load i64, ptr %2, align 8
  %7 = icmp slt i64 %6, 0
  br i1 %7, label %8, label %11

8:                                                ; preds = %1
  %9 = load i64, ptr %2, align 8
  %10 = sub i64 0, %9
  br label %13

11:                                               ; preds = %1
  %12 = load i64, ptr %2, align 8
  br label %13

13:                                               ; preds = %11, %8
  %14 = phi i64 [ %10, %8 ], [ %12, %11 ]
  store i64 %14, ptr %3, align 8
  store i32 0, ptr %5, align 4
  %15 = load i64, ptr %2, align 8
  %16 = icmp slt i64 %15, 0
  br i1 %16, label %17, label %19

17:                                               ; preds = %13
  %18 = call i32 @putchar(i32 noundef 45)
  br label %19

19:                                               ; preds = %17, %13
  br label %20

20:                                               ; preds = %31, %19
  %21 = load i64, ptr %3, align 8
  %22 = urem i64 %21, 10
  %23 = add i64 48, %22
  %24 = trunc i64 %23 to i8
  %25 = load i32, ptr %5, align 4
  %26 = add nsw i32 %25, 1
  store i32 %26, ptr %5, align 4
  %27 = sext i32 %25 to i64
  %28 = getelementptr inbounds [20 x i8], ptr %4, i64 0, i64 %27
  store i8 %24, ptr %28, align 1
  %29 = load i64, ptr %3, align 8
  %30 = udiv i64 %29, 10
  store i64 %30, ptr %3, align 8
  br label %31

31:                                               ; preds = %20
  %32 = load i64, ptr %3, align 8
  %33 = icmp ne i64 %32, 0
  br i1 %33, label %20, label %34, !llvm.loop !17

34:                                               ; preds = %31
  br label %35

35:                                               ; preds = %38, %34
  %36 = load i32, ptr %5, align 4
  %37 = icmp ne i32 %36, 0
  br i1 %37, label %38, label %46

38:                                               ; preds = %35
  %39 = load i32, ptr %5, align 4
  %40 = add nsw i32 %39, -1
  store i32 %40, ptr %5, align 4
  %41 = sext i32 %40 to i64
  %42 = getelementptr inbounds [20 x i8], ptr %4, i64 0, i64 %41
  %43 = load i8, ptr %42, align 1
  %44 = sext i8 %43 to i32
  %45 = call i32 @putchar(i32 noundef %44)
  br label %35, !llvm.loop !18

46:                                               ; preds = %35
  ret void
}

declare i32 @putchar(i32 noundef) #2

; Function Attrs: noinline nounwind uwtable
define internal i64 @applied(ptr noundef %0, i32 noundef %1, i64 noundef %2, i64 noundef %3) #0 {
  %5 = alloca i64, align 8
  %6 = alloca ptr, align 8
  %7 = alloca i32, align 4
  %8 = alloca i64, align 8
  %9 = alloca i64, align 8
  store ptr %0, ptr %6, align 8
  store i32 %1, ptr %7, align 4
  store i64 %2, ptr %8, align 8
  store i64 %3, ptr %9, align 8
  %10 = load i32, ptr %7, align 4
  switch i32 %10, label %65 [
    i32 3, label %11
    i32 4, label %15
    i32 5, label %19
    i32 6, label %23
    i32 7, label %28
    i32 10, label %33
    i32 11, label %39
    i32 12, label %45
    i32 13, label %55
  ]

11:                                               ; preds = %4
  %12 = load i64, ptr %8, align 8
  %13 = load i64, ptr %9, align 8
  %14 = add i64 %12, %13
  store i64 %14, ptr %5, align 8
  br label %66

15:                                               ; preds = %4
  %16 = load i64, ptr %8, align 8
  %17 = load i64, ptr %9, align 8
  %18 = sub i64 %16, %17
  store i64 %18, ptr %5, align 8
  br label %66

19:                                               ; preds = %4
  %20 = load i64, ptr %8, align 8
  %21 = load i64, ptr %9, align 8
  %22 = mul i64 %20, %21
  store i64 %22, ptr %5, align 8
  br label %66

23:                                               ; preds = %4
  %24 = load ptr, ptr %6, align 8
  %25 = load i64, ptr %8, align 8
  %26 = load i64, ptr %9, align 8
  %27 = call i64 @divided(ptr noundef %24, i64 noundef %25, i64 noundef %26, i32 noundef 0)
  store i64 %27, ptr %5, align 8
  br label %66

28:                                               ; preds = %4
  %29 = load ptr, ptr %6, align 8
  %30 = load i64, ptr %8, align 8
  %31 = load i64, ptr %9, align 8
  %32 = call i64 @divided(ptr noundef %29, i64 noundef %30, i64 noundef %31, i32 noundef 1)
  store i64 %32, ptr %5, align 8
  br label %66

33:                                               ; preds = %4
  %34 = load i64, ptr %8, align 8
  %35 = load i64, ptr %9, align 8
  %36 = icmp slt i64 %34, %35
  %37 = zext i1 %36 to i32
  %38 = sext i32 %37 to i64
  store i64 %38, ptr %5, align 8
  br label %66

39:                                               ; preds = %4
  %40 = load i64, ptr %8, align 8
  %41 = load i64, ptr %9, align 8
  %42 = icmp eq i64 %40, %41
  %43 = zext i1 %42 to i32
  %44 = sext i32 %43 to i64
  store i64 %44, ptr %5, align 8
  br label %66

45:                                               ; preds = %4
  %46 = load i64, ptr %8, align 8
  %47 = icmp ne i64 %46, 0
  br i1 %47, label %48, label %51

48:                                               ; preds = %45
  %49 = load i64, ptr %9, align 8
  %50 = icmp ne i64 %49, 0
  br label %51

51:                                               ; preds = %48, %45
  %52 = phi i1 [ false, %45 ], [ %50, %48 ]
  %53 = zext i1 %52 to i32
  %54 = sext i32 %53 to i64
  store i64 %54, ptr %5, align 8
  br label %66

55:                                               ; preds = %4
  %56 = load i64, ptr %8, align 8
  %57 = icmp ne i64 %56, 0
  br i1 %57, label %61, label %58

58:                                               ; preds = %55
  %59 = load i64, ptr %9, align 8
  %60 = icmp ne i64 %59, 0
  br label %61

61:                                               ; preds = %58, %55
  %62 = phi i1 [ true, %55 ], [ %60, %58 ]
  %63 = zext i1 %62 to i32
  %64 = sext i32 %63 to i64
  store i64 %64, ptr %5, align 8
  br label %66

65:                                               ; preds = %4
  store i64 0, ptr %5, align 8
  br label %66

66:                                               ; preds = %65, %61, %51, %39, %33, %28, %23, %19, %15, %11
  %67 = load i64, ptr %5, align 8
  ret i64 %67
}

; Function Attrs: noinline nounwind uwtable
define internal i64 @divided(ptr noundef %0, i64 noundef %1, i64 noundef %2, i32 noundef %3) #0 {
  %5 = alloca i64, align 8
  %6 = alloca ptr, align 8
  %7 = alloca i64, align 8
  %8 = alloca i64, align 8
  %9 = alloca i32, align 4
  store ptr %0, ptr %6, align 8
  store i64 %1, ptr %7, align 8
  store i64 %2, ptr %8, align 8
  store i32 %3, ptr %9, align 4
  %10 = load i64, ptr %8, align 8
  %11 = icmp eq i64 %10, 0
  br i1 %11, label %12, label %15

12:                                               ; preds = %4
  %13 = load ptr, ptr %6, align 8
  %14 = getelementptr inbounds %struct.machine, ptr %13, i32 0, i32 4
  store ptr @.str.17, ptr %14, align 8
  store i64 0, ptr %5, align 8
  br label %40

15:                                               ; preds = %4
  %16 = load i64, ptr %8, align 8
  %17 = icmp eq i64 %16, -1
  br i1 %17, label %18, label %27

18:                                               ; preds = %15
  %19 = load i32, ptr %9, align 4
  %20 = icmp ne i32 %19, 0
  br i1 %20, label %21, label %22

21:                                               ; preds = %18
  br label %25

22:                                               ; preds = %18
  %23 = load i64, ptr %7, align 8
  %24 = sub i64 0, %23
  br label %25

25:                                               ; preds = %22, %21
  %26 = phi i64 [ 0, %21 ], [ %24, %22 ]
  store i64 %26, ptr %5, align 8
  br label %40

27:                                               ; preds = %15
  %28 = load i32, ptr %9, align 4
  %29 = icmp ne i32 %28, 0
  br i1 %29, label %30, label %34

30:                                               ; preds = %27
  %31 = load i64, ptr %7, align 8
  %32 = load i64, ptr %8, align 8
  %33 = srem i64 %31, %32
  br label %38

34:                                               ; preds = %27
  %35 = load i64, ptr %7, align 8
  %36 = load i64, ptr %8, align 8
  %37 = sdiv i64 %35, %36
  br label %38

38:                                               ; preds = %34, %30
  %39 = phi i64 [ %33, %30 ], [ %37, %34 ]
  store i64 %39, ptr %5, align 8
  br label %40

40:                                               ; preds = %38, %25, %12
  %41 = load i64, ptr %5, align 8
  ret i64 %41
}

; Function Attrs: noinline nounwind uwtable
define internal void @put_text(ptr noundef %0) #0 {
  %2 = alloca ptr, align 8
  store ptr %0, ptr %2, align 8
  br label %3

3:                                                ; preds = %7, %1
  %4 = load ptr, ptr %2, align 8
  %5 = load i8, ptr %4, align 1
  %6 = icmp ne i8 %5, 0
  br i1 %6, label %7, label %13

7:                                                ; preds = %3
  %8 = load ptr, ptr %2, align 8
  %9 = getelementptr inbounds i8, ptr %8, i32 1
  store ptr %9, ptr %2, align 8
  %10 = load i8, ptr %8, align 1
  %11 = sext i8 %10 to i32
  %12 = call i32 @putchar(i32 noundef %11)
  br label %3, !llvm.loop !19

13:                                               ; preds = %3
  ret void
}

attributes #0 = { noinline nounwind uwtable "frame-pointer"="all" "min-legal-vector-width"="0" "no-trapping-math"="true" "stack-protector-buffer-size"="8" "target-cpu"="x86-64" "target-features"="+cmov,+cx8,+fxsr,+mmx,+sse,+sse2,+x87" "tune-cpu"="generic" }
attributes #1 = { nounwind "frame-pointer"="all" "no-trapping-math"="true" "stack-protector-buffer-size"="8" "target-cpu"="x86-64" "target-features"="+cmov,+cx8,+fxsr,+mmx,+sse,+sse2,+x87" "tune-cpu"="generic" }
attributes #2 = { "frame-pointer"="all" "no-trapping-math"="true" "stack-protector-buffer-size"="8" "target-cpu"="x86-64" "target-features"="+cmov,+cx8,+fxsr,+mmx,+sse,+sse2,+x87" "tune-cpu"="generic" }
attributes #3 = { nounwind returns_twice "frame-pointer"="all" "no-trapping-math"="true" "stack-protector-buffer-size"="8" "target-cpu"="x86-64" "target-features"="+cmov,+cx8,+fxsr,+mmx,+sse,+sse2,+x87" "tune-cpu"="generic" }
attributes #4 = { noreturn nounwind "frame-pointer"="all" "no-trapping-math"="true" "stack-protector-buffer-size"="8" "target-cpu"="x86-64" "target-features"="+cmov,+cx8,+fxsr,+mmx,+sse,+sse2,+x87" "tune-cpu"="generic" }
attributes #5 = { nounwind willreturn memory(read) "frame-pointer"="all" "no-trapping-math"="true" "stack-protector-buffer-size"="8" "target-cpu"="x86-64" "target-features"="+cmov,+cx8,+fxsr,+mmx,+sse,+sse2,+x87" "tune-cpu"="generic" }
attributes #6 = { nounwind allocsize(1) "frame-pointer"="all" "no-trapping-math"="true" "stack-protector-buffer-size"="8" "target-cpu"="x86-64" "target-features"="+cmov,+cx8,+fxsr,+mmx,+sse,+sse2,+x87" "tune-cpu"="generic" }
attributes #7 = { nounwind }
attributes #8 = { nounwind returns_twice }
attributes #9 = { nounwind allocsize(1) }
attributes #10 = { noreturn nounwind }
attributes #11 = { nounwind willreturn memory(read) }

!llvm.module.flags = !{!0, !1, !2, !3, !4}
!llvm.ident = !{!5}

!0 = !{i32 1, !"wchar_size", i32 4}
!1 = !{i32 8, !"PIC Level", i32 2}
!2 = !{i32 7, !"PIE Level", i32 2}
!3 = !{i32 7, !"uwtable", i32 2}
!4 = !{i32 7, !"frame-pointer", i32 2}
!5 = !{!"Debian clang version 19.1.7 (3~deb12u1)"}
!6 = distinct !{!6, !7}
!7 = !{!"llvm.loop.mustprogress"}
!8 = distinct !{!8, !7}
!9 = distinct !{!9, !7}
!10 = distinct !{!10, !7}
!11 = distinct !{!11, !7}
!12 = distinct !{!12, !7}
!13 = distinct !{!13, !7}
!14 = distinct !{!14, !7}
!15 = distinct !{!15, !7}
!16 = distinct !{!16, !7}
!17 = distinct !{!17, !7}
!18 = distinct !{!18, !7}
!19 = distinct !{!19, !7}
