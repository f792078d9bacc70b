; ModuleID = 'search.c'
source_filename = "search.c"
target datalayout = "e-m:e-p270:32:32-p271:32:32-p272:64:64-i64:64-f80:128-n8:16:32:64-S128"
target triple = "x86_64-pc-linux-gnu"

%struct.cue = type { i16, i32, i8*, i64, [3 x i8] }

; Function Attrs: nofree noinline norecurse nosync nounwind readonly uwtable
define dso_local i32 @at_bar(%struct.cue* nocapture noundef readonly %cues, i32 noundef %count, i32 noundef %bar) local_unnamed_addr #0 {
entry:
  %cmp14 = icmp sgt i32 %count, 0
  br i1 %cmp14, label %while.body, label %while.end

while.body:                                       ; preds = %entry, %while.body
  %low.016 = phi i32 [ %low.1, %while.body ], [ 0, %entry ]
  %high.015 = phi i32 [ %high.1, %while.body ], [ %count, %entry ]
  %sub = sub nsw i32 %high.015, %low.016
  %div = sdiv i32 %sub, 2
  %add = add nsw i32 %div, %low.016
  %idxprom = sext i32 %add to i64
  %bar1 = getelementptr inbounds %struct.cue, %struct.cue* %cues, i64 %idxprom, i32 1
  %0 = load i32, i32* %bar1, align 4, !tbaa !5
  %cmp2.not = icmp ugt i32 %0, %bar
  %add3 = add nsw i32 %add, 1
  %high.1 = select i1 %cmp2.not, i32 %add, i32 %high.015
  %low.1 = select i1 %cmp2.not, i32 %low.016, i32 %add3
  %cmp = icmp sgt i32 %high.1, %low.1
  br i1 %cmp, label %while.body, label %while.end.loopexit, !llvm.loop !13

while.end.loopexit:                               ; preds = %while.body
  %phi.bo = add i32 %low.1, -1
  br label %while.end

while.end:                                        ; preds = %while.end.loopexit, %entry
  %low.0.lcssa = phi i32 [ -1, %entry ], [ %phi.bo, %while.end.loopexit ]
  ret i32 %low.0.lcssa
}

; Function Attrs: nofree noinline nounwind readonly uwtable
define dso_local i32 @named(%struct.cue* nocapture noundef readonly %cues, i32 noundef %count, i8* nocapture noundef readonly %name, i64 noundef %length) local_unnamed_addr #1 {
entry:
  %cmp14 = icmp sgt i32 %count, 0
  br i1 %cmp14, label %for.body.preheader, label %cleanup

for.body.preheader:                               ; preds = %entry
  %wide.trip.count = zext i32 %count to i64
  br label %for.body

for.body:                                         ; preds = %for.body.preheader, %for.inc
  %indvars.iv = phi i64 [ 0, %for.body.preheader ], [ %indvars.iv.next, %for.inc ]
  %length1 = getelementptr inbounds %struct.cue, %struct.cue* %cues, i64 %indvars.iv, i32 3
  %0 = load i64, i64* %length1, align 8, !tbaa !15
  %cmp2 = icmp eq i64 %0, %length
  br i1 %cmp2, label %land.lhs.true, label %for.inc

land.lhs.true:                                    ; preds = %for.body
  %name5 = getelementptr inbounds %struct.cue, %struct.cue* %cues, i64 %indvars.iv, i32 2
  %1 = load i8*, i8** %name5, align 8, !tbaa !16
  %bcmp = call i32 @bcmp(i8* %1, i8* %name, i64 %length)
  %cmp6 = icmp eq i32 %bcmp, 0
  br i1 %cmp6, label %cleanup.loopexit.split.loop.exit, label %for.inc

for.inc:                                          ; preds = %for.body, %land.lhs.true
  %indvars.iv.next = add nuw nsw i64 %indvars.iv, 1
  %exitcond.not = icmp eq i64 %indvars.iv.next, %wide.trip.count
  br i1 %exitcond.not, label %cleanup, label %for.body, !llvm.loop !17

cleanup.loopexit.split.loop.exit:                 ; preds = %land.lhs.true
  %2 = trunc i64 %indvars.iv to i32
  br label %cleanup

cleanup:                                          ; preds = %cleanup.loopexit.split.loop.exit, %for.inc, %entry
  %spec.select = phi i32 [ -1, %entry ], [ %2, %cleanup.loopexit.split.loop.exit ], [ -1, %for.inc ]
  ret i32 %spec.select
}

; Function Attrs: argmemonly mustprogress nofree nounwind readonly willreturn
declare i32 @memcmp(i8* nocapture noundef, i8* nocapture noundef, i64 noundef) local_unnamed_addr #2

; Function Attrs: nofree noinline nounwind readonly uwtable
define dso_local i32 @order(%struct.cue* nocapture noundef readonly %a, %struct.cue* nocapture noundef readonly %b) local_unnamed_addr #1 {
entry:
  %length = getelementptr inbounds %struct.cue, %struct.cue* %a, i64 0, i32 3
  %0 = load i64, i64* %length, align 8, !tbaa !15
  %length1 = getelementptr inbounds %struct.cue, %struct.cue* %b, i64 0, i32 3
  %1 = load i64, i64* %length1, align 8, !tbaa !15
  %cmp.not = icmp ugt i64 %0, %1
  br i1 %cmp.not, label %if.end, label %if.then

if.then:                                          ; preds = %entry
  %name = getelementptr inbounds %struct.cue, %struct.cue* %a, i64 0, i32 2
  %2 = load i8*, i8** %name, align 8, !tbaa !16
  %name2 = getelementptr inbounds %struct.cue, %struct.cue* %b, i64 0, i32 2
  %3 = load i8*, i8** %name2, align 8, !tbaa !16
  %call = call i32 @memcmp(i8* noundef %2, i8* noundef %3, i64 noundef %0)
  %cmp4.not = icmp eq i32 %call, 0
  %cmp7 = icmp ult i64 %0, %1
  %conv.neg = sext i1 %cmp7 to i32
  %cond = select i1 %cmp4.not, i32 %conv.neg, i32 %call
  br label %cleanup

if.end:                                           ; preds = %entry
  %call8 = call i32 @order(%struct.cue* noundef %b, %struct.cue* noundef %a)
  %cmp9.inv = icmp sgt i32 %call8, -1
  %cond11 = select i1 %cmp9.inv, i32 -1, i32 1
  br label %cleanup

cleanup:                                          ; preds = %if.end, %if.then
  %retval.0 = phi i32 [ %cond, %if.then ], [ %cond11, %if.end ]
  ret i32 %retval.0
}

; Function Attrs: nofree noinline nounwind readonly uwtable
define dso_local i32 @ascending(%struct.cue* nocapture noundef readonly %cues, i32 noundef %count) local_unnamed_addr #1 {
entry:
  %cmp9 = icmp sgt i32 %count, 1
  br i1 %cmp9, label %for.body.preheader, label %cleanup

for.body.preheader:                               ; preds = %entry
  %0 = sext i32 %count to i64
  %wide.trip.count = zext i32 %count to i64
  %arrayidx214 = getelementptr inbounds %struct.cue, %struct.cue* %cues, i64 1
  %call15 = call i32 @order(%struct.cue* noundef %cues, %struct.cue* noundef nonnull %arrayidx214)
  %cmp316 = icmp sgt i32 %call15, -1
  br i1 %cmp316, label %cleanup, label %for.cond

for.cond:                                         ; preds = %for.body.preheader, %for.body
  %indvars.iv.next17 = phi i64 [ %indvars.iv.next, %for.body ], [ 2, %for.body.preheader ]
  %exitcond.not = icmp eq i64 %indvars.iv.next17, %wide.trip.count
  br i1 %exitcond.not, label %cleanup.loopexit, label %for.body, !llvm.loop !18

for.body:                                         ; preds = %for.cond
  %1 = add nsw i64 %indvars.iv.next17, -1
  %arrayidx = getelementptr inbounds %struct.cue, %struct.cue* %cues, i64 %1
  %arrayidx2 = getelementptr inbounds %struct.cue, %struct.cue* %cues, i64 %indvars.iv.next17
  %call = call i32 @order(%struct.cue* noundef %arrayidx, %struct.cue* noundef nonnull %arrayidx2)
  %cmp3 = icmp sgt i32 %call, -1
  %indvars.iv.next = add nuw nsw i64 %indvars.iv.next17, 1
  br i1 %cmp3, label %cleanup.loopexit, label %for.cond, !llvm.loop !18

cleanup.loopexit:                                 ; preds = %for.cond, %for.body
  %cmp.le = icmp slt i64 %indvars.iv.next17, %0
  br label %cleanup

cleanup:                                          ; preds = %cleanup.loopexit, %for.body.preheader, %entry
  %cmp.lcssa = phi i1 [ %cmp9, %entry ], [ %cmp9, %for.body.preheader ], [ %cmp.le, %cleanup.loopexit ]
  %2 = xor i1 %cmp.lcssa, true
  %spec.select = zext i1 %2 to i32
  ret i32 %spec.select
}

; Function Attrs: mustprogress nofree noinline norecurse nosync nounwind readonly uwtable willreturn
define dso_local i32 @colour(%struct.cue* nocapture noundef readonly %cue) local_unnamed_addr #3 {
entry:
  %arrayidx = getelementptr inbounds %struct.cue, %struct.cue* %cue, i64 0, i32 4, i64 0
  %0 = load i8, i8* %arrayidx, align 8, !tbaa !19
  %conv = zext i8 %0 to i32
  %shl = shl nuw nsw i32 %conv, 16
  %arrayidx2 = getelementptr inbounds %struct.cue, %struct.cue* %cue, i64 0, i32 4, i64 1
  %1 = load i8, i8* %arrayidx2, align 1, !tbaa !19
  %conv3 = zext i8 %1 to i32
  %shl4 = shl nuw nsw i32 %conv3, 8
  %or = or i32 %shl4, %shl
  %arrayidx6 = getelementptr inbounds %struct.cue, %struct.cue* %cue, i64 0, i32 4, i64 2
  %2 = load i8, i8* %arrayidx6, align 2, !tbaa !19
  %conv7 = zext i8 %2 to i32
  %or8 = or i32 %or, %conv7
  ret i32 %or8
}

; Function Attrs: argmemonly nofree nounwind readonly willreturn
declare i32 @bcmp(i8* nocapture, i8* nocapture, i64) local_unnamed_addr #4

attributes #0 = { nofree noinline norecurse nosync nounwind readonly uwtable "frame-pointer"="none" "min-legal-vector-width"="0" "no-trapping-math"="true" "stack-protector-buffer-size"="8" "target-cpu"="x86-64" "target-features"="+cx8,+fxsr,+mmx,+sse,+sse2,+x87" "tune-cpu"="generic" }
attributes #1 = { nofree noinline nounwind readonly uwtable "frame-pointer"="none" "min-legal-vector-width"="0" "no-trapping-math"="true" "stack-protector-buffer-size"="8" "target-cpu"="x86-64" "target-features"="+cx8,+fxsr,+mmx,+sse,+sse2,+x87" "tune-cpu"="generic" }
attributes #2 = { argmemonly mustprogress nofree nounwind readonly willreturn "frame-pointer"="none" "no-trapping-math"="true" "stack-protector-buffer-size"="8" "target-cpu"="x86-64" "target-features"="+cx8,+fxsr,+mmx,+sse,+sse2,+x87" "tune-cpu"="generic" }
attributes #3 = { mustprogress nofree noinline norecurse nosync nounwind readonly uwtable willreturn "frame-pointer"="none" "min-legal-vector-width"="0" "no-trapping-math"="true" "stack-protector-buffer-size"="8" "target-cpu"="x86-64" "target-features"="+cx8,+fxsr,+mmx,+sse,+sse2,+x87" "tune-cpu"="generic" }
attributes #4 = { argmemonly nofree nounwind readonly willreturn }

!llvm.module.flags = !{!0, !1, !2, !3}
!llvm.ident = !{!4}

!0 = !{i32 1, !"wchar_size", i32 4}
!1 = !{i32 7, !"PIC Level", i32 2}
!2 = !{i32 7, !"PIE Level", i32 2}
!3 = !{i32 7, !"uwtable", i32 1}
!4 = !{!"Debian clang version 14.0.6"}
!5 = !{!6, !10, i64 4}
!6 = !{!"cue", !7, i64 0, !10, i64 4, !11, i64 8, !12, i64 16, !8, i64 24}
!7 = !{!"short", !8, i64 0}
!8 = !{!"omnipotent char", !9, i64 0}
!9 = !{!"Simple C/C++ TBAA"}
!10 = !{!"int", !8, i64 0}
!11 = !{!"any pointer", !8, i64 0}
!12 = !{!"long", !8, i64 0}
!13 = distinct !{!13, !14}
!14 = !{!"llvm.loop.unroll.disable"}
!15 = !{!6, !12, i64 16}
!16 = !{!6, !11, i64 8}
!17 = distinct !{!17, !14}
!18 = distinct !{!18, !14}
!19 = !{!8, !8, i64 0}
